/* What a log under a sheet comes to, and why. The verdict is guard_run's; what a rule would have taken is asked of copies (ask.c). */
#include "explain.h"

#include <inttypes.h>
#include <stdio.h>

static struct verdict run(struct bytes book, struct bytes log)
{
    uint8_t out[GUARD_OUTPUT_BYTES] = {GUARD_REFUSED, GUARD_OUTPUT};
    guard_run(book.at, book.length, log.at, log.length, UINT32_MAX, out, sizeof out);
    struct verdict v = {out[0], out[1], (unsigned)little_endian(out + 2, 2), (uint32_t)little_endian(out + 4, 4), (uint32_t)little_endian(out + 8, 4)};
    return v;
}

static int in_mask(const struct desk *d, unsigned rule)
{
    return rule < d->sheet.count && (d->verdict.mask >> rule & 1) != 0;
}

/* "broken at 4: rules 0 2": the words that examples/intercom uses. */
static void print_verdict(const struct desk *d, const char *answer, uint32_t count)
{
    const char *before = ": rules ";
    printf("%s %" PRIu32, answer, count);
    for (unsigned rule = 0; rule < RULES; rule++)
        if (in_mask(d, rule)) {
            printf("%s%u", before, rule);
            before = " ";
        }
    printf("\n");
}

/* The names that a rule takes at a time, and until when where there is an end to it. */
static void print_taken(const struct desk *d, unsigned rule, uint32_t time)
{
    uint64_t own = names_of(&d->sheet.rules[rule]);
    const char *before = " ";
    for (unsigned name = 0; name < NAMES; name++) {
        struct record record = {name, time};
        if (!has(own, name) || !keeps(&d->state, rule, record))
            continue;
        uint32_t last = last_kept(&d->state, rule, name, UINT32_MAX);
        printf("%s", before);
        print_name(&d->names, name);
        if (last < UINT32_MAX)
            printf(" (until %" PRIu32 ")", last);
        before = ", ";
    }
    printf("\n");
}

/* ---- a break */

/* Why the record breaks the rule, and the time at which to ask what was expected. Where the clock alone breaks the rule, nothing is taken at the record's time: it is
 * asked at the last millisecond before. Else the record's name is the rule's own, and late if it would have been taken right after the rule's last event. */
static uint32_t print_cause(const struct desk *d, unsigned rule, struct record record)
{
    struct record clock = {CLOCK, record.time}, earlier = {record.name, d->state.latest};
    if (!keeps(&d->state, rule, clock)) {
        uint32_t last = last_kept(&d->state, rule, CLOCK, record.time);
        printf("  late: the last millisecond in time was %" PRIu32 "\n", last);
        return last;
    }
    int late = keeps(&d->state, rule, earlier);
    printf("  %s: ", late ? "late" : "out of order");
    print_name(&d->names, record.name);
    if (late)
        printf(" was in time until %" PRIu32 "\n", last_kept(&d->state, rule, record.name, record.time));
    else
        printf(" is not taken there\n");
    return record.time;
}

static enum status explain_break(struct desk *d)
{
    uint32_t number = d->verdict.place;
    struct record record = record_of(d->log, number - 1);
    print_verdict(d, "broken at", number);
    printf("record %" PRIu32 ": ", number);
    print_record(&d->names, record);
    printf("\n");
    for (unsigned rule = 0; rule < RULES; rule++)
        if (in_mask(d, rule)) {
            print_rule(&d->names, &d->sheet, rule);
            replay(&d->state, d->log, number - 1, names_of(&d->sheet.rules[rule]));
            uint32_t time = print_cause(d, rule, record);
            printf("  expected at %" PRIu32 ":", time);
            print_taken(d, rule, time);
        }
    return BROKEN;
}

/* ---- whole and open */

/* The mask has the open rules, also after a refused record. */
static enum status explain_open(struct desk *d)
{
    uint32_t taken = d->verdict.taken;
    print_verdict(d, d->verdict.mask == 0 ? "whole after" : "open after", taken);
    for (unsigned rule = 0; rule < RULES; rule++)
        if (in_mask(d, rule)) {
            print_rule(&d->names, &d->sheet, rule);
            replay(&d->state, d->log, taken, names_of(&d->sheet.rules[rule]));
            printf("  waits for:");
            print_taken(d, rule, latest_time(d->log, taken));
        }
    return WHOLE_OR_OPEN;
}

/* ---- refusals */

static void explain_refused_field(const struct desk *d)
{
    if (d->sheet.last.at == d->verdict.place)
        print_field(&d->names, &d->sheet.last);
    else
        printf("  no field that this program knows begins there\n");
}

static void explain_refused_length(const struct desk *d)
{
    size_t length = d->log.length;
    printf("  %s%zu bytes: %zu records and %zu bytes more\n", length > UINT32_MAX ? "at least " : "", length, length / GUARD_RECORD_BYTES, length % GUARD_RECORD_BYTES);
}

static void explain_refused_record(struct desk *d)
{
    size_t index = d->verdict.place / GUARD_RECORD_BYTES;
    printf("record %zu: ", index + 1);
    print_record(&d->names, record_of(d->log, index));
    printf("; the latest time is %" PRIu32 "\n", latest_time(d->log, d->verdict.taken));
    explain_open(d);
}

static int refuses_sheet(const struct verdict *v)
{
    return v->answer == GUARD_REFUSED && v->refusal >= GUARD_TRUNCATED && v->refusal <= GUARD_LEFT_OVER;
}

static int refuses_record(const struct verdict *v)
{
    return v->refusal == GUARD_TIME_FALLS || v->refusal == GUARD_NAME_UNKNOWN || v->refusal == GUARD_COUNT_FULL;
}

static enum status explain_refusal(struct desk *d)
{
    const struct verdict *v = &d->verdict;
    printf("refused %u at byte %" PRIu32 ": %s\n", v->refusal, v->place, guard_refusal_text(v->refusal));
    if (refuses_sheet(v))
        explain_refused_field(d);
    else if (refuses_record(v))
        explain_refused_record(d);
    else if (v->refusal == GUARD_LOG_LENGTH)
        explain_refused_length(d);
    return REFUSED;
}

/* ---- all */

static enum status not_known(const char *what)
{
    fprintf(stderr, "explain: the library %s that this program doesn't know\n", what);
    return COULD_NOT_RUN;
}

/* A sheet that the guard accepts is read to its end here too, unless the library is of a later version. */
static int opens(struct desk *d)
{
    return d->sheet.complete && guard_open(&d->state.book, &d->state.monitor, d->book.at, d->book.length).answer == GUARD_WHOLE;
}

/* The records that the verdict speaks of are in the log. */
static int is_about(const struct verdict *v, size_t records)
{
    if (v->answer == GUARD_BROKEN)
        return v->place >= 1 && v->place <= records;
    return v->taken <= records && (v->answer != GUARD_REFUSED || !refuses_record(v) || v->place / GUARD_RECORD_BYTES < records);
}

enum status explain(struct desk *d)
{
    d->verdict = run(d->book, d->log);
    if (!is_about(&d->verdict, d->log.length / GUARD_RECORD_BYTES))
        return not_known("gives an answer");
    read_sheet(&d->sheet, d->book, refuses_sheet(&d->verdict) ? d->verdict.place : NO_PLACE);
    if (!refuses_sheet(&d->verdict) && !opens(d))
        return not_known("accepts a sheet");
    print_sheet(&d->names, &d->sheet);
    switch (d->verdict.answer) {
    case GUARD_WHOLE:
    case GUARD_OPEN:
        return explain_open(d);
    case GUARD_BROKEN:
        return explain_break(d);
    case GUARD_REFUSED:
        return explain_refusal(d);
    default:
        return not_known("gives an answer");
    }
}
