/* Plays a plugin that does not exist yet, so that a host can be tried: some rounds of each rule of a sheet, picked by random bytes, which are the same in each run. Each round goes through the guard
 * as a host's calls do, under two books: that of the rule alone, by which it is whole, and the sheet's own, whose other rules may want other calls before these.
 *
 *     cc -std=c99 -Wall -Wextra -Werror -I include -o play examples/play/play.c target/libguard.a && ./play SHEET
 *
 * Exit status: 0 every round is whole by its rule, 1 some round is not, 2 refused, with the number, 3 could not run. */
#include "guard.h"
#include <stdio.h>
#include <string.h>

enum { WHOLE, NOT_WHOLE, REFUSED, COULD_NOT_RUN, ROUNDS = 100, MOST_BYTES = 40, MOST_RECORDS = 20000, TIME = 1000 };
static uint8_t sheet[GUARD_SHEET_BYTES + 1], records[MOST_RECORDS * GUARD_RECORD_BYTES];
static guard_monitor monitor;

static int refused(uint32_t number)
{
    printf("refused %u: %s\n", (unsigned)number, guard_refusal_text(number));
    return REFUSED;
}

/* One round, by so many random bytes: the number of its records, or minus a refusal's number. */
static int64_t play(const guard_book *book, unsigned rule, size_t bytes)
{
    static uint64_t state = 1;
    uint8_t choice[MOST_BYTES];
    for (size_t i = 0; i < bytes; i++)
        choice[i] = (uint8_t)((state = state * 6364136223846793005u + 1442695040888963407u) >> 56);
    return guard_play(book, rule, TIME, choice, bytes, records, sizeof records);
}

/* What a host does with the round, from a fresh monitor on: it asks before each call, and makes the call on whole and open. The last answer, or that of the break. */
static unsigned try_host(const guard_book *book, int64_t count)
{
    guard_start(&monitor);
    guard_answer a = guard_verdict(&monitor);
    for (int64_t i = 0; i < count && (a.answer == GUARD_WHOLE || a.answer == GUARD_OPEN); i++)
        a = guard_event(book, &monitor, records[i * GUARD_RECORD_BYTES], TIME);
    return a.answer;
}

/* The book of the rule alone: the sheet's head with a rule count of 1, and the rule's bytes. Answers where the next rule begins. */
static size_t open_alone(guard_book *alone, size_t at)
{
    uint8_t own[GUARD_SHEET_BYTES];
    size_t end = at + 8;
    for (unsigned f = 0; f < (unsigned)sheet[at + 1] + sheet[at + 2]; f++)
        end += 2 + 5 * (size_t)sheet[end + 1];
    memcpy(own, sheet, 14), own[13] = 1;
    memcpy(own + 14, sheet + at, end - at);
    guard_open(alone, &monitor, own, 14 + end - at);
    return end;
}

int main(int argc, char **argv)
{
    static guard_book book, alone;
    FILE *f = argc == 2 ? fopen(argv[1], "rb") : NULL;
    if (f == NULL)
        return fprintf(stderr, "usage: play SHEET\n"), COULD_NOT_RUN;
    size_t length = fread(sheet, 1, sizeof sheet, f), at = 14;
    guard_answer opened = guard_open(&book, &monitor, sheet, length);
    if (fclose(f) != 0 || opened.answer == GUARD_REFUSED)
        return refused(opened.refusal);
    int status = WHOLE;
    for (unsigned rule = 0; at < length; rule++) {
        int64_t n, shortest = MOST_RECORDS, whole = 0, taken = 0;
        at = open_alone(&alone, at);
        for (unsigned round = 0; round < ROUNDS; round++) {
            if ((n = play(&book, rule, round % (MOST_BYTES + 1))) < 0)
                return refused((uint32_t)-n);
            shortest = n < shortest ? n : shortest;
            whole += try_host(&alone, n) == GUARD_WHOLE;
            taken += try_host(&book, n) != GUARD_BROKEN;
        }
        printf("rule %u: %d of %d rounds whole, the shortest of %d calls; as first calls the sheet takes %d\n", rule, (int)whole, ROUNDS, (int)shortest, (int)taken);
        status = whole == ROUNDS ? status : NOT_WHOLE;
    }
    return status;
}
