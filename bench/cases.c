/* Holds a guard to the stored cases of crates/vectors: its run of each log, a live session over the same records, and each accepted sheet written back. The format of the file is at the top of
 * reference/make.py. And to what no file has: two logs with more events on one name than sixteen bits count, and a round of each rule of each accepted sheet, which the rule takes whole and in which
 * all guards agree. */
#include "contestants.h"

#include <stdio.h>
#include <stdlib.h>
#include <string.h>

typedef struct contestant {
    const char *name;
    uint32_t (*run)(const uint8_t *, size_t, const uint8_t *, size_t, uint32_t, uint8_t *, size_t);
    uint64_t (*open)(lent *, const uint8_t *, size_t);
    uint64_t (*event)(lent *, uint32_t, uint32_t);
    uint64_t (*clock)(lent *, uint32_t);
    uint64_t (*verdict)(const lent *);
    uint32_t (*taken)(const lent *);
    int64_t (*write)(const lent *, uint8_t *, size_t);
    int64_t (*play)(const lent *, uint32_t, uint32_t, const uint8_t *, size_t, uint8_t *, size_t);
} contestant;

static uint64_t word(guard_answer a)
{
    return a.answer | (uint64_t)a.refusal << 8 | (uint64_t)a.mask << 16 | (uint64_t)a.place << 32;
}

static uint64_t itself(uint64_t word)
{
    return word;
}

/* The calls of one guard over the memory lent to it; `as` makes its answer one number. */
#define CALLS(id, as)                                                                                                                         \
    static uint64_t id##_opens(lent *l, const uint8_t *s, size_t n) { return as(id##_open(&l->id##_book, &l->id##_monitor, s, n)); }          \
    static uint64_t id##_sees(lent *l, uint32_t name, uint32_t time) { return as(id##_event(&l->id##_book, &l->id##_monitor, name, time)); } \
    static uint64_t id##_reads(lent *l, uint32_t time) { return as(id##_clock(&l->id##_book, &l->id##_monitor, time)); }                      \
    static uint64_t id##_says(const lent *l) { return as(id##_verdict(&l->id##_monitor)); }                                                   \
    static uint32_t id##_took(const lent *l) { return id##_taken(&l->id##_monitor); }                                                         \
    static int64_t id##_stores(const lent *l, uint8_t *b, size_t n) { return id##_write(&l->id##_book, b, n); }                               \
    static int64_t id##_plays(const lent *l, uint32_t rule, uint32_t time, const uint8_t *choice, size_t length, uint8_t *out, size_t n)      \
    {                                                                                                                                         \
        return id##_play(&l->id##_book, rule, time, choice, length, out, n);                                                                  \
    }

#define CONTESTANT(id) {#id, id##_run, id##_opens, id##_sees, id##_reads, id##_says, id##_took, id##_stores, id##_plays}

CALLS(guard, word)
CALLS(hand, itself)
CALLS(hand_rs, itself)
CALLS(cells, itself)

static const contestant contestants[] = {CONTESTANT(guard), CONTESTANT(hand), CONTESTANT(hand_rs), CONTESTANT(cells)};

static uint32_t number(const uint8_t *p, size_t n)
{
    uint32_t x = 0;
    while (n-- > 0)
        x = x << 8 | p[n];
    return x;
}

typedef struct test {
    const uint8_t *sheet, *log, *due;
    size_t sheet_length, log_length;
    uint32_t budget;
} test;

static const uint8_t *next_case(const uint8_t *p, test *t)
{
    t->sheet_length = number(p, 2), t->sheet = p + 2, p += 2 + t->sheet_length;
    t->log_length = number(p, 2), t->log = p + 2, p += 2 + t->log_length;
    t->budget = number(p, 4), t->due = p + 4;
    return p + 4 + 12 + 1;
}

static void twelve(uint8_t out[12], uint64_t said, uint16_t mask, uint32_t taken, uint32_t place)
{
    const uint32_t fields[5] = {(uint8_t)said, (uint8_t)(said >> 8), mask, taken, place};
    const size_t sizes[5] = {1, 1, 2, 4, 4};
    for (size_t f = 0; f < 5; f++)
        for (size_t i = 0; i < sizes[f]; i++)
            *out++ = (uint8_t)(fields[f] >> 8 * i);
}

/* The twelve bytes of a run, from a session's answers. Returns 0 if an answer is not what the session before it lets expect. */
static int session(const contestant *c, lent *l, const test *t, uint8_t out[12])
{
    uint64_t said = c->open(l, t->sheet, t->sheet_length);
    if (said != 0) {
        twelve(out, said, 0, 0, (uint32_t)(said >> 32));
        return 1;
    }
    if (t->log_length % 5 != 0) {
        twelve(out, 3 | 14 << 8, 0, 0, 0);
        return 1;
    }
    for (size_t at = 0; at < t->log_length && c->taken(l) < t->budget; at += 5) {
        uint64_t before = c->verdict(l);
        uint32_t taken = c->taken(l), time = number(t->log + at + 1, 4);
        said = t->log[at] == 0xFF ? c->clock(l, time) : c->event(l, t->log[at], time);
        if ((uint8_t)said == 3) {
            twelve(out, said, (uint16_t)(before >> 16), taken, (uint32_t)at);
            return said >> 16 == 0 && c->verdict(l) == before && c->taken(l) == taken;
        }
        if (said != c->verdict(l) || c->taken(l) != taken + 1)
            return 0;
        if ((uint8_t)said == 2) {
            twelve(out, said, (uint16_t)(said >> 16), taken + 1, (uint32_t)(said >> 32));
            return c->event(l, 99, 0) == said && c->clock(l, 0) == said && c->taken(l) == taken + 1;
        }
    }
    said = c->verdict(l);
    twelve(out, said, (uint16_t)(said >> 16), c->taken(l), (uint32_t)(said >> 32));
    return 1;
}

/* "writing its book gives the sheet's own bytes", into a buffer of just their length and into a longer one, whose rest stays; "16, buffer shorter than the sheet, nothing written". */
static int writes_back(const contestant *c, const lent *l, const test *t)
{
    size_t n = t->sheet_length;
    uint8_t buffer[GUARD_SHEET_BYTES + 8], before[sizeof buffer];
    memset(before, 0xA5, sizeof before);
    memset(buffer, 0xA5, sizeof buffer);
    if (c->write(l, buffer, n - 1) != -16 || memcmp(buffer, before, sizeof buffer) != 0)
        return 0;
    if (c->write(l, buffer, n) != (int64_t)n || memcmp(buffer, t->sheet, n) != 0 || memcmp(buffer + n, before + n, sizeof buffer - n) != 0)
        return 0;
    return c->write(l, buffer, sizeof buffer) == (int64_t)n && memcmp(buffer, t->sheet, n) == 0 && memcmp(buffer + n, before + n, sizeof buffer - n) == 0;
}

/* A round of a rule, picked by the bytes of the case's log: the guard's own answer and records, into an output that they fill, and 18 and nothing written where one byte is missing. By the rule's
 * sheet the rule is then neither open nor broken. "17, no such rule". */
static int plays(const contestant *c, const lent *l, const test *t, uint32_t rule)
{
    enum { ROOM = 5 * 300 };
    uint8_t out[ROOM], due[ROOM], before[ROOM], said[12];
    memset(before, 0xA5, ROOM), memset(out, 0xA5, ROOM), memset(due, 0xA5, ROOM);
    uint32_t time = 0x01020304 * rule;
    int64_t records = contestants[0].play(l, rule, time, t->log, t->log_length, due, ROOM);
    if (c->play(l, rule, time, t->log, t->log_length, out, ROOM) != records || memcmp(out, due, ROOM) != 0)
        return 0;
    if (rule >= t->sheet[13])
        return records == -17 && c->play(l, rule, time, t->log, t->log_length, out, 0) == -17;
    if (records < 0)
        return records == -18 && memcmp(out, before, ROOM) == 0;
    size_t length = 5 * (size_t)records;
    memset(out, 0xA5, ROOM);
    if (c->play(l, rule, time, t->log, t->log_length, out, length - 1) != -18 || memcmp(out, before, ROOM) != 0)
        return 0;
    if (c->play(l, rule, time, t->log, t->log_length, out, length) != records || memcmp(out, due, ROOM) != 0)
        return 0;
    return c->run(t->sheet, t->sheet_length, out, length, UINT32_MAX, said, 12) == 0 && said[0] != GUARD_REFUSED && !(number(said + 2, 2) >> rule & 1);
}

/* Every rule of the case's sheet, and the numbers after it. */
static int plays_all(const contestant *c, lent *l, const test *t)
{
    contestants[0].open(l, t->sheet, t->sheet_length);
    for (uint32_t rule = 0; rule < 18; rule++)
        if (!plays(c, l, t, rule))
            return 0;
    return plays(c, l, t, UINT32_MAX);
}

static int agrees(const contestant *c, lent *l, const test *t)
{
    uint8_t out[16], live[12];
    memset(out, 0xA5, sizeof out);
    if (c->run(t->sheet, t->sheet_length, t->log, t->log_length, t->budget, out, 11) != 15 || out[0] != 0xA5)
        return 0;
    if (c->run(t->sheet, t->sheet_length, t->log, t->log_length, t->budget, out, sizeof out) != 0 || out[12] != 0xA5)
        return 0;
    return memcmp(out, t->due, 12) == 0 && session(c, l, t, live) && memcmp(live, t->due, 12) == 0;
}

/* The case's sheet is accepted. */
static int accepted(const test *t)
{
    return t->due[0] != GUARD_REFUSED || t->due[1] > GUARD_LEFT_OVER;
}

/* Kind 1, 0[3,v] before 2: 65,537 events and the trigger. Without an upper end, v = 0, the log is whole; with v = 65535 the 65,536th event breaks. */
static int agrees_long(const contestant *c, lent *l, uint16_t v)
{
    enum { EVENTS = 65537 };
    static uint8_t log[5 * (EVENTS + 1)];
    const uint8_t sheet[] = {0x4C, 0x4F, 0x42, 2, 0, 0, 0, 0, 0, 0, 0, 0, 0, 1, 1, 1, 0, 2, 0, 0, 0, 0, 0, 1, 0, 3, 0, (uint8_t)v, (uint8_t)(v >> 8)};
    uint8_t due[12];
    log[5 * EVENTS] = 2;
    if (v == 0)
        twelve(due, 0, 0, EVENTS + 1, 0);
    else
        twelve(due, 2, 1, EVENTS - 1, EVENTS - 1);
    return agrees(c, l, &(test){sheet, log, due, sizeof sheet, sizeof log, UINT32_MAX});
}

static uint8_t *file_bytes(const char *path)
{
    FILE *f = fopen(path, "rb");
    if (!f)
        return NULL;
    fseek(f, 0, SEEK_END);
    size_t n = (size_t)ftell(f);
    rewind(f);
    uint8_t *bytes = malloc(n);
    if (bytes && fread(bytes, 1, n, f) != n)
        bytes = NULL;
    fclose(f);
    return bytes;
}

int main(int argc, char **argv)
{
    const uint8_t *cases = argc == 2 ? file_bytes(argv[1]) : NULL;
    if (!cases)
        return fprintf(stderr, "usage: cases CASES.BIN\n"), 2;
    static lent l;
    int failed = 0;
    uint32_t count = number(cases, 4);
    for (size_t c = 0; c < sizeof contestants / sizeof *contestants; c++) {
        const uint8_t *p = cases + 8;
        uint32_t right = 0, sheets = 0, written = 0, played = 0;
        for (uint32_t i = 0; i < count; i++) {
            test t;
            p = next_case(p, &t);
            int stored = agrees(&contestants[c], &l, &t), sheet = accepted(&t);
            int back = sheet && writes_back(&contestants[c], &l, &t), rounds = sheet && plays_all(&contestants[c], &l, &t);
            right += (uint32_t)stored, sheets += (uint32_t)sheet, written += (uint32_t)back, played += (uint32_t)rounds;
            if ((!stored || back != sheet || rounds != sheet) && !failed++)
                fprintf(stderr, "%s: first at case %u\n", contestants[c].name, i);
        }
        int both = agrees_long(&contestants[c], &l, 0) && agrees_long(&contestants[c], &l, UINT16_MAX);
        failed += !both;
        printf("%s: %u of %u cases as due, %u of %u sheets written back and %u played, and more than 65,536 events on one name %s\n", contestants[c].name, right, count, written, sheets, played,
               both ? "too" : "NOT");
    }
    return failed != 0;
}
