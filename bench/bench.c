/* Measures the guards on the configurations of configurations.py, and on the rounds that it has to be played. Prints lines of fields with tabs between them, which table.py puts into tables.
 *   bench facts     each configuration: part, title, and the numbers that go with it; then each round: 'play', title, and the number of its records
 *   bench time      what was done, and nanoseconds: per record, by log and live, per sheet written back, and per round played
 *   bench count     under callgrind: one dump of counts for each measurement, whose label says what was done */
#include "contestants.h"

#include <stdbool.h>
#include <stdio.h>
#include <stdlib.h>
#include <string.h>
#include <time.h>
#include <valgrind/callgrind.h>

typedef struct configuration {
    const char *part, *title;
    const uint8_t *sheet;
    size_t sheet_length;
    const uint8_t *opening;
    size_t opening_length;
    const uint8_t *round;
    size_t round_length;
    int figure_ops, figure_bits, table_ops, table_bits; /* 0 where the paper has no such row */
    int rules, tables_bits;
} configuration;

typedef struct round_played {
    const char *title;
    const uint8_t *sheet;
    size_t sheet_length;
    uint32_t rule;
    const uint8_t *choice;
    size_t choice_length;
} round_played;

#include "configurations.h" /* made by configurations.py */

/* A round's number follows those of the configurations. */
enum { CONFIGURATIONS = sizeof configurations / sizeof *configurations, ROUNDS = sizeof rounds / sizeof *rounds };
enum { TIMED_RECORDS = 20000, TIMED_WRITES = 400, REPETITIONS = 25, COUNTED_RECORDS = 600, ROUND_RECORDS = 20000 };

/* ---- logs */

typedef struct record {
    uint32_t name, time;
} record;

/* A log twice: as records for a session, and as the bytes that a run takes. */
typedef struct log_of {
    size_t count;
    record *records;
    uint8_t *bytes;
} log_of;

/* The opening and at least n more records, in whole rounds. */
static log_of make_log(const configuration *c, size_t n)
{
    log_of log = {.count = c->opening_length + (n + c->round_length - 1) / c->round_length * c->round_length};
    log.records = malloc(log.count * sizeof *log.records);
    log.bytes = malloc(5 * log.count);
    if (!log.records || !log.bytes)
        abort();
    for (size_t i = 0; i < log.count; i++) {
        uint8_t name = i < c->opening_length ? c->opening[i] : c->round[(i - c->opening_length) % c->round_length];
        log.records[i] = (record){name, (uint32_t)i};
        log.bytes[5 * i] = name;
        for (unsigned b = 0; b < 4; b++)
            log.bytes[5 * i + 1 + b] = (uint8_t)(i >> 8 * b);
    }
    return log;
}

static void drop_log(log_of log)
{
    free(log.records);
    free(log.bytes);
}

/* ---- what a host does with each guard */

static unsigned guard_told(guard_answer a) { return a.answer; }
static unsigned told(uint64_t word) { return (uint8_t)word; }

/* A session's records one after the other, up to a break or a refusal: the number of calls made. */
#define SESSION(id, told)                                                                                  \
    static size_t id##_session(lent *l, const record *records, size_t count)                               \
    {                                                                                                      \
        size_t i = 0;                                                                                      \
        for (; i < count; i++) {                                                                           \
            uint32_t name = records[i].name, time = records[i].time;                                       \
            unsigned answer = name == 0xFF ? told(id##_clock(&l->id##_book, &l->id##_monitor, time))       \
                                           : told(id##_event(&l->id##_book, &l->id##_monitor, name, time)); \
            if (answer >= GUARD_BROKEN)                                                                    \
                break;                                                                                     \
        }                                                                                                  \
        return i;                                                                                          \
    }

#define OPENED(id, told)                                                      \
    static unsigned id##_opened(lent *l, const uint8_t *sheet, size_t length) \
    {                                                                         \
        return told(id##_open(&l->id##_book, &l->id##_monitor, sheet, length)); \
    }

#define WRITTEN(id)                                                      \
    static int64_t id##_written(const lent *l, uint8_t *buffer, size_t length) \
    {                                                                    \
        return id##_write(&l->id##_book, buffer, length);                \
    }

#define PLAYED(id)                                                                                                   \
    static int64_t id##_played(const lent *l, const round_played *p, uint8_t *out, size_t length)                    \
    {                                                                                                                \
        return id##_play(&l->id##_book, p->rule, 1, p->choice, p->choice_length, out, length);                       \
    }

SESSION(guard, guard_told)
SESSION(hand, told)
SESSION(hand_rs, told)
SESSION(cells, told)
SESSION(none, told)
OPENED(guard, guard_told)
OPENED(hand, told)
OPENED(hand_rs, told)
OPENED(cells, told)
WRITTEN(guard)
WRITTEN(hand)
WRITTEN(hand_rs)
WRITTEN(cells)
PLAYED(guard)
PLAYED(hand)
PLAYED(hand_rs)
PLAYED(cells)

static uint32_t none_run(const uint8_t *sheet, size_t sheet_length, const uint8_t *log, size_t log_length, uint32_t budget, uint8_t *out, size_t out_length)
{
    (void)sheet, (void)sheet_length, (void)log, (void)budget, (void)out_length;
    memset(out, 0, 12);
    memcpy(out + 4, &(uint32_t){(uint32_t)(log_length / 5)}, 4);
    return 0;
}

static unsigned none_opened(lent *l, const uint8_t *sheet, size_t length)
{
    (void)l, (void)sheet, (void)length;
    return GUARD_WHOLE;
}

/* It writes the bytes of no sheet. */
static int64_t none_written(const lent *l, uint8_t *buffer, size_t length)
{
    (void)l, (void)buffer, (void)length;
    return 0;
}

/* It plays a round of no records. */
static int64_t none_played(const lent *l, const round_played *p, uint8_t *out, size_t length)
{
    (void)l, (void)p, (void)out, (void)length;
    return 0;
}

typedef struct contestant {
    const char *name;
    uint32_t (*run)(const uint8_t *, size_t, const uint8_t *, size_t, uint32_t, uint8_t *, size_t);
    unsigned (*open)(lent *, const uint8_t *, size_t);
    size_t (*session)(lent *, const record *, size_t);
    int64_t (*write)(const lent *, uint8_t *, size_t);
    int64_t (*play)(const lent *, const round_played *, uint8_t *, size_t);
} contestant;

#define CONTESTANT(id) {#id, id##_run, id##_opened, id##_session, id##_written, id##_played}
static const contestant contestants[] = {CONTESTANT(guard), CONTESTANT(hand), CONTESTANT(hand_rs), CONTESTANT(cells), CONTESTANT(none)};
enum { CONTESTANTS = sizeof contestants / sizeof *contestants };
static lent memory;

static void must(bool right, const contestant *by, const char *title)
{
    if (right)
        return;
    fprintf(stderr, "%s does not do what is due at: %s\n", by->name, title);
    exit(1);
}

static void run_log(const contestant *by, const configuration *c, log_of log)
{
    uint8_t out[12];
    uint32_t taken;
    must(by->run(c->sheet, c->sheet_length, log.bytes, 5 * log.count, UINT32_MAX, out, sizeof out) == 0, by, c->title);
    memcpy(&taken, out + 4, 4);
    must(out[0] <= GUARD_OPEN && taken == log.count, by, c->title);
}

static void open_session(const contestant *by, const configuration *c)
{
    must(by->open(&memory, c->sheet, c->sheet_length) == GUARD_WHOLE, by, c->title);
}

static void live(const contestant *by, const configuration *c, const record *records, size_t count)
{
    must(by->session(&memory, records, count) == count, by, c->title);
}

static void write_back(const contestant *by, const configuration *c)
{
    static uint8_t buffer[GUARD_SHEET_BYTES];
    must(by->write(&memory, buffer, sizeof buffer) == (by->write == none_written ? 0 : (int64_t)c->sheet_length), by, c->title);
}

/* A round is played into memory that is lent once, by a book that was opened before. */
static void play(const contestant *by, const round_played *p, int64_t records)
{
    static uint8_t out[5 * ROUND_RECORDS];
    must(by->play(&memory, p, out, sizeof out) == (by->play == none_played ? 0 : records), by, p->title);
}

/* Opens the round's sheet for every contestant, and answers the number of the round's records: the guard's, of which each contestant says the same at each call. */
static int64_t open_round(const round_played *p)
{
    static uint8_t out[5 * ROUND_RECORDS];
    for (unsigned k = 0; k < CONTESTANTS; k++)
        must(contestants[k].open(&memory, p->sheet, p->sheet_length) == GUARD_WHOLE, &contestants[k], p->title);
    int64_t records = contestants[0].play(&memory, p, out, sizeof out);
    must(records > 0, &contestants[0], p->title);
    return records;
}

/* ---- time */

static double now(void)
{
    struct timespec t;
    clock_gettime(CLOCK_MONOTONIC, &t);
    return (double)t.tv_sec * 1e9 + (double)t.tv_nsec;
}

/* Each repetition measures all contestants in turn, so that a busy machine is busy for all; the least time of each is kept. */
static void time_configuration(unsigned number)
{
    const configuration *c = &configurations[number];
    log_of log = make_log(c, TIMED_RECORDS);
    double least[CONTESTANTS][3];
    for (unsigned r = 0; r < REPETITIONS; r++)
        for (unsigned k = 0; k < CONTESTANTS; k++) {
            double start = now();
            run_log(&contestants[k], c, log);
            double middle = now();
            open_session(&contestants[k], c);
            double opened = now();
            live(&contestants[k], c, log.records, log.count);
            double seen = now();
            for (unsigned w = 0; w < TIMED_WRITES; w++)
                write_back(&contestants[k], c);
            double spent[3] = {(middle - start) / (double)log.count, (seen - opened) / (double)log.count, (now() - seen) / TIMED_WRITES};
            for (unsigned m = 0; m < 3; m++)
                if (r == 0 || spent[m] < least[k][m])
                    least[k][m] = spent[m];
        }
    static const char *const ways[3] = {"run", "live", "write"};
    for (unsigned k = 0; k < CONTESTANTS; k++)
        for (unsigned m = 0; m < 3; m++)
            printf("%u\t%s\t%s\t%.2f\n", number, contestants[k].name, ways[m], least[k][m]);
    drop_log(log);
}

static void time_round(unsigned number)
{
    const round_played *p = &rounds[number];
    int64_t records = open_round(p);
    unsigned times = 1 + (unsigned)(TIMED_RECORDS / records);
    double least[CONTESTANTS];
    for (unsigned r = 0; r < REPETITIONS; r++)
        for (unsigned k = 0; k < CONTESTANTS; k++) {
            double start = now();
            for (unsigned i = 0; i < times; i++)
                play(&contestants[k], p, records);
            double spent = (now() - start) / times;
            if (r == 0 || spent < least[k])
                least[k] = spent;
        }
    for (unsigned k = 0; k < CONTESTANTS; k++)
        printf("%u\t%s\tplay\t%.2f\n", CONFIGURATIONS + number, contestants[k].name, least[k]);
}

/* ---- counts */

/* A dump's label is contestant, configuration, what was done and the number of records, with spaces between them. It is written before the counts are set to 0, so that
 * nothing but the loop and the guard is in a dump. */
static void count_from_here(char label[128], const contestant *by, unsigned number, const char *what, size_t records)
{
    snprintf(label, 128, "%s %u %s %zu", by->name, number, what, records);
    CALLGRIND_ZERO_STATS;
}

/* Two lengths of each: their difference has no start-up in it. Opening and writing back are counted alone. */
static void count_means(const contestant *by, unsigned number)
{
    const configuration *c = &configurations[number];
    char label[128];
    for (size_t n = COUNTED_RECORDS; n <= 2 * COUNTED_RECORDS; n += COUNTED_RECORDS) {
        log_of log = make_log(c, n);
        count_from_here(label, by, number, "run", log.count);
        run_log(by, c, log);
        CALLGRIND_DUMP_STATS_AT(label);
        count_from_here(label, by, number, "open", log.count);
        open_session(by, c);
        CALLGRIND_DUMP_STATS_AT(label);
        count_from_here(label, by, number, "live", log.count);
        live(by, c, log.records, log.count);
        CALLGRIND_DUMP_STATS_AT(label);
        count_from_here(label, by, number, "write", log.count);
        write_back(by, c);
        CALLGRIND_DUMP_STATS_AT(label);
        drop_log(log);
    }
}

/* Each record of two rounds alone; then an event that concerns no rule, where it takes least: after a whole round no rule is open and no deadline runs. */
static void count_each(const contestant *by, unsigned number)
{
    const configuration *c = &configurations[number];
    char label[128];
    log_of log = make_log(c, 2 * c->round_length);
    const record foreign = {FOREIGN, (uint32_t)log.count};
    open_session(by, c);
    for (size_t i = 0; i <= log.count; i++) {
        bool round = i < log.count;
        count_from_here(label, by, number, round ? "each" : "foreign", i);
        live(by, c, round ? &log.records[i] : &foreign, 1);
        CALLGRIND_DUMP_STATS_AT(label);
    }
    drop_log(log);
}

static void count_configuration(unsigned number)
{
    for (unsigned k = 0; k < CONTESTANTS; k++) {
        count_means(&contestants[k], number);
        if (strcmp(configurations[number].part, "paper") == 0)
            count_each(&contestants[k], number);
    }
}

static void count_round(unsigned number)
{
    char label[128];
    int64_t records = open_round(&rounds[number]);
    for (unsigned k = 0; k < CONTESTANTS; k++) {
        count_from_here(label, &contestants[k], CONFIGURATIONS + number, "play", (size_t)records);
        play(&contestants[k], &rounds[number], records);
        CALLGRIND_DUMP_STATS_AT(label);
    }
}

static void facts_of_round(unsigned number)
{
    printf("%u\tplay\t%s\t%lld\n", CONFIGURATIONS + number, rounds[number].title, (long long)open_round(&rounds[number]));
}

static void facts(unsigned number)
{
    const configuration *c = &configurations[number];
    printf("%u\t%s\t%s\t%d\t%d\t%d\t%d\t%d\t%d\n", number, c->part, c->title, c->figure_ops, c->figure_bits, c->table_ops, c->table_bits, c->rules, c->tables_bits);
}

int main(int argc, char **argv)
{
    static const struct {
        const char *word;
        void (*act)(unsigned), (*play)(unsigned);
    } words[] = {{"facts", facts, facts_of_round}, {"time", time_configuration, time_round}, {"count", count_configuration, count_round}};
    for (unsigned w = 0; argc == 2 && w < 3; w++)
        if (strcmp(argv[1], words[w].word) == 0) {
            for (unsigned i = 0; i < CONFIGURATIONS; i++)
                words[w].act(i);
            for (unsigned i = 0; i < ROUNDS; i++)
                words[w].play(i);
            return 0;
        }
    fprintf(stderr, "usage: bench facts|time|count\n");
    return 2;
}
