/* Logs of more than 65,536 events, which long.txt tells in a few lines: by the call, with the budget of each stretch's end and with every one, and live, each answer. A count of sixteen bits
 * that runs over is seen here. */
#include "host.h"

#define NAMES 4      /* of a stretch, at most */
#define STRETCHES 8  /* of a case, at most */
#define SHEET 128    /* bytes, at most */
#define LINE 512     /* of the file, at most */

struct stretch {
    uint8_t names[NAMES]; /* FF: the clock */
    uint32_t name_count, count, time;
    guard_answer due;     /* to each of its records */
};

struct long_case {
    char title[LINE];
    uint8_t sheet[SHEET];
    size_t sheet_length, stretch_count;
    struct stretch stretches[STRETCHES];
};

/* ---- reading the file */

static void cannot_read(const char *line)
{
    fprintf(stderr, "a line of the long logs can't be read: %s\n", line);
    exit(2);
}

static void read_sheet(struct long_case *c, const char *hex)
{
    unsigned byte;
    for (c->sheet_length = 0; sscanf(hex, "%2x", &byte) == 1; hex += 2) {
        if (c->sheet_length == SHEET)
            cannot_read(hex);
        c->sheet[c->sheet_length++] = (uint8_t)byte;
    }
}

static void read_stretch(struct long_case *c, const char *line)
{
    char names[32];
    unsigned numbers[6];
    if (c->stretch_count == STRETCHES ||
        sscanf(line, "%31s %u %u %u %u %u %u", names, &numbers[0], &numbers[1], &numbers[2], &numbers[3], &numbers[4], &numbers[5]) != 7)
        cannot_read(line);
    struct stretch *s = &c->stretches[c->stretch_count++];
    s->name_count = 0;
    for (const char *at = names; s->name_count < NAMES; at += strcspn(at, ",") + 1) {
        s->names[s->name_count++] = *at == 'c' ? 0xFF : (uint8_t)strtoul(at, NULL, 10);
        if (at[strcspn(at, ",")] == 0)
            break;
    }
    s->count = numbers[0], s->time = numbers[1];
    s->due = answer((uint8_t)numbers[2], (uint8_t)numbers[3], (uint16_t)numbers[4], numbers[5]);
}

/* ---- one case */

static uint32_t records_of(const struct stretch *s)
{
    return s->name_count * s->count;
}

static uint8_t name_of(const struct stretch *s, uint32_t record)
{
    return s->names[record % s->name_count];
}

static uint8_t *log_of(const struct long_case *c, size_t *length)
{
    size_t records = 0;
    for (size_t i = 0; i < c->stretch_count; i++)
        records += records_of(&c->stretches[i]);
    uint8_t *log = malloc(5 * records), *at = log;
    if (!log)
        exit(2);
    for (size_t i = 0; i < c->stretch_count; i++)
        for (uint32_t r = 0; r < records_of(&c->stretches[i]); r++, at += 5) {
            at[0] = name_of(&c->stretches[i], r);
            for (size_t b = 0; b < 4; b++)
                at[1 + b] = (uint8_t)(c->stretches[i].time >> 8 * b);
        }
    *length = 5 * records;
    return log;
}

static long wrong_run(const struct long_case *c, const uint8_t *log, size_t length, uint32_t budget, guard_answer due, uint32_t taken)
{
    uint8_t out[12];
    return guard_run(c->sheet, c->sheet_length, log, length, budget, out, 12) != 0 || out[0] != due.answer || out[1] != due.refusal ||
           (out[2] | out[3] << 8) != due.mask || four_bytes(out + 4) != taken || four_bytes(out + 8) != due.place;
}

static long wrong_runs(const struct long_case *c, long *runs)
{
    size_t length;
    uint8_t *log = log_of(c, &length);
    uint32_t taken = 0;
    long wrong = 0;
    for (size_t i = 0; i < c->stretch_count; i++, ++*runs) {
        taken += records_of(&c->stretches[i]);
        wrong += wrong_run(c, log, length, taken, c->stretches[i].due, taken);
    }
    wrong += wrong_run(c, log, length, ALL, c->stretches[c->stretch_count - 1].due, taken);
    ++*runs;
    free(log);
    return wrong;
}

static long wrong_answers(const struct long_case *c, long *answers)
{
    static guard_book book;
    guard_monitor monitor;
    long wrong = guard_open(&book, &monitor, c->sheet, c->sheet_length).answer != GUARD_WHOLE;
    for (size_t i = 0; i < c->stretch_count; i++)
        for (uint32_t r = 0; r < records_of(&c->stretches[i]); r++, ++*answers) {
            uint8_t name = name_of(&c->stretches[i], r);
            struct observation o = {name == 0xFF, name, c->stretches[i].time, c->stretches[i].due};
            wrong += !same_answer(observe(&book, &monitor, o), o.due) || !same_answer(guard_verdict(&monitor), o.due);
        }
    return wrong;
}

static void check_case(const struct long_case *c, long number, long counts[4])
{
    long by_log = wrong_runs(c, &counts[0]), live = wrong_answers(c, &counts[1]);
    if (by_log || live)
        differs(c->title, number);
    counts[2] += by_log, counts[3] += live;
}

void check_long(const char *path)
{
    static struct long_case c;
    char line[LINE];
    long counts[4] = {0, 0, 0, 0}, number = 0; /* runs, answers, and those wrong */
    FILE *file = fopen(path, "r");
    if (!file)
        cannot_read(path);
    while (fgets(line, sizeof line, file)) {
        line[strcspn(line, "\n")] = 0;
        if (strncmp(line, "case ", 5) == 0) {
            if (number++)
                check_case(&c, number - 1, counts);
            c.stretch_count = 0;
            strcpy(c.title, line + 5);
        } else if (strncmp(line, "sheet ", 6) == 0)
            read_sheet(&c, line + 6);
        else if (line[0] != '#')
            read_stretch(&c, line);
    }
    fclose(file);
    if (number)
        check_case(&c, number, counts);
    tell("logs of more than 65,536 events by log", counts[0], counts[2]);
    tell("logs of more than 65,536 events live, answers", counts[1], counts[3]);
}
