/* Document 01, "Traces to settle arguments", and its printed case, and the traces of changes 1 and 2: each answer of a session, and the five numbers of the call, written out by hand; and the
 * call with each budget, held to the session. */
#include "host.h"

/* observations: "0@5" is name 0 at time 5, "c@5" a clock reading. due: w whole, o open, b broken with its k, r refused with its number; the only rule is rule 0, so a mask
 * is 1. numbers: answer, refusal, mask, taken, place. */
struct trace {
    const uint8_t *sheet;
    size_t length;
    const char *observations, *due;
    uint32_t numbers[5];
};

#define T sheet_t, T_BYTES
#define R sheet_r, R_BYTES
#define N sheet_n, N_BYTES
#define S sheet_s, S_BYTES
#define A sheet_a, A_BYTES
#define O sheet_o, O_BYTES
#define W sheet_w, W_BYTES
#define E sheet_e, E_BYTES
#define F sheet_f, F_BYTES
#define G sheet_g, G_BYTES
#define H sheet_h, H_BYTES

static const struct trace traces[] = {
    {T, "", "", {0, 0, 0, 0, 0}},
    {T, "0@0 0@5 1@15", "o o w", {0, 0, 0, 3, 0}},
    {T, "0@0 0@5 1@16", "o o b3", {2, 0, 1, 3, 3}},
    {T, "0@0 0@5 c@100", "o o o", {1, 0, 1, 3, 0}},
    {T, "0@0 0@1 0@2 c@12", "o o o o", {1, 0, 1, 4, 0}},
    {T, "0@0 0@1 0@2 c@13", "o o o b4", {2, 0, 1, 4, 4}},
    {T, "0@0 0@5 1@15 c@99", "o o w w", {0, 0, 0, 4, 0}},
    {T, "0@0 0@5 1@15 c@99 1@99", "o o w w b5", {2, 0, 1, 5, 5}},
    {T, "0@0 1@0", "o b2", {2, 0, 1, 2, 2}},
    {T, "0@0 0@0 0@0 0@0", "o o o b4", {2, 0, 1, 4, 4}},
    {T, "0@7 1@6", "o r11", {3, 11, 1, 1, 5}},
    {R, "1@0 0@0 2@0", "o o w", {0, 0, 0, 3, 0}},
    {R, "0@0 1@0 0@0", "o o b3", {2, 0, 1, 3, 3}},
    {N, "0@0 2@0 2@0 1@0", "o w w w", {0, 0, 0, 4, 0}},
    {N, "2@0", "b1", {2, 0, 1, 1, 1}},
    {R, "1@5 0@5 2@9 2@10", "o o w b4", {2, 0, 1, 4, 4}},
    {S, "0@0 1@0 0@0 9@10", "o o o w", {0, 0, 0, 4, 0}},
    {S, "0@0 1@0 1@0", "o o b3", {2, 0, 1, 3, 3}},
    {S, "0@0 0@0 9@0", "o o b3", {2, 0, 1, 3, 3}},
    {S, "0@0 1@0 c@99", "o o o", {1, 0, 1, 3, 0}},
    {S, "0@0 1@0 0@0 c@99", "o o o b4", {2, 0, 1, 4, 4}},
    {A, "3@0 0@50 1@60 c@70", "o o o o", {1, 0, 1, 4, 0}},
    {A, "3@0 1@50 c@999 1@999", "o o o o", {1, 0, 1, 4, 0}},
    {O, "0@0 1@0 1@0", "o o o", {1, 0, 1, 3, 0}},
    {O, "0@0 1@0 2@0", "o o b3", {2, 0, 1, 3, 3}},
    {O, "0@0 1@0 0@0 2@0", "o o o w", {0, 0, 0, 4, 0}},
    {O, "1@0 2@0", "o w", {0, 0, 0, 2, 0}},
    {O, "2@0", "b1", {2, 0, 1, 1, 1}},
    {O, "1@0 0@0 1@0 1@0", "o o o b4", {2, 0, 1, 4, 4}},
    {O, "1@0 1@0 2@0 1@0 1@0 2@0", "o o w o o w", {0, 0, 0, 6, 0}},
    {W, "0@0 1@0 0@0 1@0 4@0 3@0 4@0 2@0", "o o o o o o o w", {0, 0, 0, 8, 0}},
    {W, "0@0 1@0 0@0 1@0 4@0 3@0 2@0", "o o o o o o b7", {2, 0, 1, 7, 7}},
    {E, "0@0 9@0", "o b2", {2, 0, 1, 2, 2}},
    {E, "0@0 0@0 9@10", "o o w", {0, 0, 0, 3, 0}},
    {E, "0@0 0@0 0@0 0@0 0@0 9@10", "o o o o o w", {0, 0, 0, 6, 0}},
    {E, "0@0 0@0 0@0 0@0 c@99", "o o o o o", {1, 0, 1, 5, 0}},
    {E, "0@0 0@0 0@50 9@60", "o o o w", {0, 0, 0, 4, 0}},
    {E, "0@0 0@0 0@50 9@61", "o o o b4", {2, 0, 1, 4, 4}},
    {E, "0@0 0@0 9@0 9@0 9@0", "o o w w b5", {2, 0, 1, 5, 5}},
    {H, "0@0 0@0 1@0 0@0", "o o o b4", {2, 0, 1, 4, 4}},
    {F, "0@0 0@0 1@0 0@0", "o o o b4", {2, 0, 1, 4, 4}},
    {F, "0@0 0@0 1@0 c@11", "o o o b4", {2, 0, 1, 4, 4}},
    {F, "1@0 0@0 0@0 c@99", "o o o o", {1, 0, 1, 4, 0}},
    {G, "0@0 0@0 1@0 0@0 9@10", "o o o o w", {0, 0, 0, 5, 0}},
    {G, "0@0 0@0 1@0 c@99", "o o o o", {1, 0, 1, 4, 0}},
    {H, "0@0 0@0 1@0 3@0 1@0 3@0 1@0 2@0", "o o o o o o o w", {0, 0, 0, 8, 0}},
    {H, "0@0 0@0 1@0 3@0 1@0 2@0", "o o o o o b6", {2, 0, 1, 6, 6}},
    {F, "1@0 0@0 9@1 9@2 9@10 c@99", "o o w w w w", {0, 0, 0, 6, 0}},
    {F, "1@0 0@0 9@1 9@2 9@10 c@99 9@99", "o o w w w w b7", {2, 0, 1, 7, 7}},
    {F, "1@0 0@0 9@1 9@2 9@10 c@99 0@99", "o o w w w w o", {1, 0, 1, 7, 0}},
};

#define MOST 8 /* observations of a trace */

static guard_answer due_of(const char *word)
{
    uint32_t value = (uint32_t)strtoul(word + 1, NULL, 10);
    switch (word[0]) {
    case 'o':
        return answer(GUARD_OPEN, 0, 1, 0);
    case 'b':
        return answer(GUARD_BROKEN, 0, 1, value);
    case 'r':
        return answer(GUARD_REFUSED, (uint8_t)value, 0, 0);
    default:
        return answer(GUARD_WHOLE, 0, 0, 0);
    }
}

static size_t observations_of(const struct trace *t, struct observation *os)
{
    const char *at = t->observations, *due = t->due;
    size_t n = 0;
    for (; *at && *due; n++) {
        os[n].clock = *at == 'c';
        os[n].name = os[n].clock ? 0 : (uint32_t)strtoul(at, NULL, 10);
        os[n].time = (uint32_t)strtoul(strchr(at, '@') + 1, NULL, 10);
        os[n].due = due_of(due);
        at += strcspn(at, " "), at += *at == ' ';
        due += strcspn(due, " "), due += *due == ' ';
    }
    return n;
}

static size_t log_of(const struct observation *os, size_t n, uint8_t *log)
{
    for (size_t i = 0; i < n; i++) {
        log[5 * i] = os[i].clock ? 0xFF : (uint8_t)os[i].name;
        for (size_t b = 0; b < 4; b++)
            log[5 * i + 1 + b] = (uint8_t)(os[i].time >> 8 * b);
    }
    return 5 * n;
}

static void numbers_of(const uint8_t *out, uint32_t numbers[5])
{
    numbers[0] = out[0], numbers[1] = out[1], numbers[2] = out[2] | (uint32_t)out[3] << 8;
    numbers[3] = four_bytes(out + 4), numbers[4] = four_bytes(out + 8);
}

static long wrong_numbers(const struct trace *t, const uint8_t *log, size_t length)
{
    uint8_t out[12];
    uint32_t numbers[5];
    if (guard_run(t->sheet, t->length, log, length, ALL, out, 12) != 0)
        return 1;
    numbers_of(out, numbers);
    return memcmp(numbers, t->numbers, sizeof numbers) != 0;
}

/* The call with budget k against the session after k observations, taken ones all. */
static long wrong_budget(const struct trace *t, const uint8_t *log, size_t length, uint32_t k, guard_answer held, uint32_t taken)
{
    uint8_t out[12];
    uint32_t numbers[5], due[5] = {held.answer, held.refusal, held.mask, taken, held.place};
    if (guard_run(t->sheet, t->length, log, length, k, out, 12) != 0)
        return 1;
    numbers_of(out, numbers);
    return memcmp(numbers, due, sizeof numbers) != 0;
}

struct tally {
    long live, budgets, wrong_live, wrong_budgets;
};

static void play(long number, const struct trace *t, const struct observation *os, size_t n, const uint8_t *log, struct tally *counts)
{
    guard_book book;
    guard_monitor monitor;
    if (guard_open(&book, &monitor, t->sheet, t->length).answer != GUARD_WHOLE)
        counts->wrong_live += differs("a trace's sheet", number);
    counts->budgets++;
    counts->wrong_budgets += wrong_budget(t, log, 5 * n, 0, guard_verdict(&monitor), guard_taken(&monitor));
    for (size_t i = 0; i < n; i++) {
        guard_answer held = guard_verdict(&monitor), a = observe(&book, &monitor, os[i]), after = guard_verdict(&monitor);
        counts->live++;
        if (!same_answer(a, os[i].due) || !same_answer(after, a.answer == GUARD_REFUSED ? held : a))
            counts->wrong_live += differs(t->observations, (long)i);
        if (a.answer == GUARD_REFUSED)
            continue;
        counts->budgets++;
        if (wrong_budget(t, log, 5 * n, (uint32_t)i + 1, after, guard_taken(&monitor)))
            counts->wrong_budgets += differs(t->observations, (long)i + 1);
    }
}

void check_traces(void)
{
    struct tally counts = {0, 0, 0, 0};
    long by_log = 0, wrong = 0;
    for (size_t i = 0; i < sizeof traces / sizeof *traces; i++, by_log++) {
        struct observation os[MOST];
        uint8_t log[5 * MOST];
        size_t n = observations_of(&traces[i], os);
        if (wrong_numbers(&traces[i], log, log_of(os, n, log)))
            wrong += differs(traces[i].observations, (long)i);
        play((long)i, &traces[i], os, n, log, &counts);
    }
    tell("traces of document 01 and of changes 1 and 2 by log", by_log, wrong);
    tell("traces of document 01 and of changes 1 and 2 live, answers", counts.live, counts.wrong_live);
    tell("traces of document 01 and of changes 1 and 2, each budget as live", counts.budgets, counts.wrong_budgets);
}
