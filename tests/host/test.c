/* The guard from C. The call of a C host, by hand: the printed case, a budget, refusals, a short output, the bytes behind the twelve. What is due is written out from
 * document 01. The other files check sheets, traces, the reference's cases, sessions, page edges, books written back, rounds played and garbage; each check prints a line, and any
 * failure ends with status 1. */
#define _POSIX_C_SOURCE 200112L
#include "host.h"

#include <unistd.h>

/* ---- what host.h declares of checks, numbers and answers */

static int failed;
static int printed;

void tell(const char *what, long count, long wrong)
{
    if (wrong)
        printf("%s: %ld NOT AS DUE, of %ld\n", what, wrong, count);
    else if (count == 0)
        printf("%s: NOTHING CHECKED\n", what);
    else
        printf("%s: %ld as due\n", what, count);
    failed |= wrong != 0 || count == 0;
}

long differs(const char *what, long number)
{
    if (printed++ < 20)
        printf("  differs: %s, number %ld\n", what, number);
    return 1;
}

uint64_t number(void)
{
    static uint64_t state = 1202;
    uint64_t x = state += 0x9E3779B97F4A7C15u;
    x = (x ^ x >> 30) * 0xBF58476D1CE4E5B9u;
    x = (x ^ x >> 27) * 0x94D049BB133111EBu;
    return x ^ x >> 31;
}

uint32_t below(uint32_t n)
{
    return (uint32_t)(number() % n);
}

void scramble(void *bytes, size_t length)
{
    for (size_t i = 0; i < length; i += sizeof(uint64_t)) {
        uint64_t word = number();
        memcpy((uint8_t *)bytes + i, &word, length - i < sizeof word ? length - i : sizeof word);
    }
}

guard_answer answer(uint8_t kind, uint8_t refusal, uint16_t mask, uint32_t place)
{
    guard_answer a = {kind, refusal, mask, place};
    return a;
}

int same_answer(guard_answer a, guard_answer b)
{
    return a.answer == b.answer && a.refusal == b.refusal && a.mask == b.mask && a.place == b.place;
}

uint32_t four_bytes(const uint8_t *b)
{
    return b[0] | (uint32_t)b[1] << 8 | (uint32_t)b[2] << 16 | (uint32_t)b[3] << 24;
}

/* T: kind 2, P = 0[2,3], Q = 1[1,2], t = 10. R: kind 1, {0, 1} all before 2, bounds [1,1]; the printed case's book.lob. N: R as kind 0 with any. */
const uint8_t sheet_t[T_BYTES] = {0x4C, 0x4F, 0x42, 1, 0, 2, 0, 0, 0, 0, 0, 0, 0, 1, 2, 1, 1, 0, 10, 0, 0, 0, 0, 1, 0, 2, 0, 3, 0, 0, 1, 1, 1, 0, 2, 0};
const uint8_t sheet_r[R_BYTES] = {0x4C, 0x4F, 0x42, 1, 0, 0, 0, 0, 0, 0, 0, 0, 0, 1, 1, 1, 0, 2, 0, 0, 0, 0, 0, 2, 0, 1, 0, 1, 0, 1, 1, 0, 1, 0};
const uint8_t sheet_n[N_BYTES] = {0x4C, 0x4F, 0x42, 1, 0, 0, 0, 0, 0, 0, 0, 0, 0, 1, 0, 1, 0, 2, 0, 0, 0, 0, 1, 2, 0, 1, 0, 1, 0, 1, 1, 0, 1, 0};

/* In version 2. S: kind 2, P = {0[1,2], 1[1,1]} all shuffled, Q = 9[1,2], t = 10. A: P = 3[1,1] then {0[1,1], 1[2,2]} any, Q and t as in S. O: kind 1, {0[2,3], 1[1,2]} any
 * shuffled before 2. W: kind 1, {0[1,2], 1[2,2]} all shuffled, then {3[1,1], 4[2,2]} any shuffled, before 2. */
const uint8_t sheet_s[S_BYTES] = {0x4C, 0x4F, 0x42, 2, 0, 0, 2, 0, 0, 0, 0, 0, 0, 1, 2, 1, 1, 0, 10, 0, 0, 0, 2, 2, 0, 1, 0, 2, 0, 1, 1, 0, 1, 0, 0, 1, 9, 1, 0, 2, 0};
const uint8_t sheet_a[A_BYTES] = {0x4C, 0x4F, 0x42, 2, 0, 0, 2, 0, 0, 0, 0, 0, 0, 1, 2, 2, 1, 0, 10, 0, 0, 0, 0, 1, 3, 1, 0, 1, 0, 1, 2, 0, 1, 0, 1, 0, 1, 2, 0, 2, 0, 0, 1, 9, 1, 0, 2, 0};
const uint8_t sheet_w[W_BYTES] = {0x4C, 0x4F, 0x42, 2, 0, 0, 0, 0, 0, 0, 0, 0, 0, 1, 1, 2, 0, 2, 0, 0, 0, 0, 2, 2, 0, 1, 0, 2, 0, 1, 2, 0, 2, 0, 3, 2, 3, 1, 0, 1, 0, 4, 2, 0, 2, 0};
const uint8_t sheet_o[O_BYTES] = {0x4C, 0x4F, 0x42, 2, 0, 0, 0, 0, 0, 0, 0, 0, 0, 1, 1, 1, 0, 2, 0, 0, 0, 0, 3, 2, 0, 2, 0, 3, 0, 1, 1, 0, 2, 0};

/* v = 0 is no upper end. E: kind 2, P = 0[2,0], Q = 9[1,2], t = 10. F: P = {0[1,0], 1[1,1]} all, Q = 9[1,0], t = 10; G: the same with P shuffled. H: kind 1, 0[2,0], then {1[1,0], 3[2,2]}
 * any shuffled, before 2. */
const uint8_t sheet_e[E_BYTES] = {0x4C, 0x4F, 0x42, 2, 0, 0, 2, 0, 0, 0, 0, 0, 0, 1, 2, 1, 1, 0, 10, 0, 0, 0, 0, 1, 0, 2, 0, 0, 0, 0, 1, 9, 1, 0, 2, 0};
const uint8_t sheet_f[F_BYTES] = {0x4C, 0x4F, 0x42, 2, 0, 0, 2, 0, 0, 0, 0, 0, 0, 1, 2, 1, 1, 0, 10, 0, 0, 0, 0, 2, 0, 1, 0, 0, 0, 1, 1, 0, 1, 0, 0, 1, 9, 1, 0, 0, 0};
const uint8_t sheet_g[G_BYTES] = {0x4C, 0x4F, 0x42, 2, 0, 0, 2, 0, 0, 0, 0, 0, 0, 1, 2, 1, 1, 0, 10, 0, 0, 0, 2, 2, 0, 1, 0, 0, 0, 1, 1, 0, 1, 0, 0, 1, 9, 1, 0, 0, 0};
const uint8_t sheet_h[H_BYTES] = {0x4C, 0x4F, 0x42, 2, 0, 0, 0, 0, 0, 0, 0, 0, 0, 1, 1, 2, 0, 2, 0, 0, 0, 0, 0, 1, 0, 2, 0, 0, 0, 3, 2, 1, 1, 0, 0, 0, 3, 2, 0, 2, 0};

/* ---- the call by hand */

/* trace.lot of the printed case: 1@5 0@5 2@9 2@10 */
static const uint8_t trace[20] = {1, 5, 0, 0, 0, 0, 5, 0, 0, 0, 2, 9, 0, 0, 0, 2, 10, 0, 0, 0};

struct call {
    const char *what;
    size_t sheet_length;
    const uint8_t *log;
    size_t log_length;
    uint32_t budget;
    uint8_t due[12];
};

static const uint8_t name_64[10] = {1, 5, 0, 0, 0, 64, 5, 0, 0, 0}, falling[10] = {1, 5, 0, 0, 0, 0, 4, 0, 0, 0};

/* on the sheet of rule R, or its first bytes */
static const struct call calls[] = {
    {"printed case", 34, trace, 20, ALL, {2, 0, 1, 0, 4, 0, 0, 0, 4, 0, 0, 0}},
    {"budget 4", 34, trace, 20, 4, {2, 0, 1, 0, 4, 0, 0, 0, 4, 0, 0, 0}},
    {"budget 3", 34, trace, 20, 3, {0, 0, 0, 0, 3, 0, 0, 0, 0, 0, 0, 0}},
    {"budget 1", 34, trace, 20, 1, {1, 0, 1, 0, 1, 0, 0, 0, 0, 0, 0, 0}},
    {"budget 0", 34, trace, 20, 0, {0, 0, 0, 0, 0, 0, 0, 0, 0, 0, 0, 0}},
    {"no log", 34, NULL, 0, ALL, {0, 0, 0, 0, 0, 0, 0, 0, 0, 0, 0, 0}},
    {"no sheet", 0, trace, 20, ALL, {3, 1, 0, 0, 0, 0, 0, 0, 0, 0, 0, 0}},
    {"sheet cut off", 33, trace, 20, ALL, {3, 1, 0, 0, 0, 0, 0, 0, 32, 0, 0, 0}},
    {"log of 19 bytes", 34, trace, 19, ALL, {3, 14, 0, 0, 0, 0, 0, 0, 0, 0, 0, 0}},
    {"log of 19 bytes, budget 0", 34, trace, 19, 0, {3, 14, 0, 0, 0, 0, 0, 0, 0, 0, 0, 0}},
    {"sheet before log", 33, trace, 19, ALL, {3, 1, 0, 0, 0, 0, 0, 0, 32, 0, 0, 0}},
    {"name 64", 34, name_64, 10, ALL, {3, 12, 1, 0, 1, 0, 0, 0, 5, 0, 0, 0}},
    {"name 64 behind the budget", 34, name_64, 10, 1, {1, 0, 1, 0, 1, 0, 0, 0, 0, 0, 0, 0}},
    {"falling time", 34, falling, 10, ALL, {3, 11, 1, 0, 1, 0, 0, 0, 5, 0, 0, 0}},
};

static void check_calls(void)
{
    long count = 0, wrong = 0;
    for (size_t i = 0; i < sizeof calls / sizeof *calls; i++, count++) {
        const struct call *c = &calls[i];
        uint8_t out[16];
        memset(out, 0xA5, sizeof out);
        uint32_t returned = guard_run(c->sheet_length ? sheet_r : NULL, c->sheet_length, c->log, c->log_length, c->budget, out, sizeof out);
        if (returned != 0 || memcmp(out, c->due, 12) != 0 || memcmp(out + 12, "\xA5\xA5\xA5\xA5", 4) != 0)
            wrong += differs(c->what, (long)i);
    }
    tell("calls by hand", count, wrong);
}

/* "15 output under 12 bytes: it is unchanged and the call returns 15", looked at before sheet and log; "Later bytes don't change." */
static void check_outputs(void)
{
    long short_ones = 0, longer = 0, wrong_short = 0, wrong_longer = 0;
    for (size_t i = 0; i < sizeof calls / sizeof *calls; i++)
        for (size_t length = 0; length <= 80; length++) {
            const struct call *c = &calls[i];
            uint8_t out[96], before[96];
            scramble(out, sizeof out);
            memcpy(before, out, sizeof out);
            uint32_t returned = guard_run(sheet_r, c->sheet_length, c->log, c->log_length, c->budget, out, length);
            if (length < 12) {
                short_ones++;
                if (returned != 15 || memcmp(out, before, sizeof out) != 0)
                    wrong_short += differs(c->what, (long)length);
            } else {
                longer++;
                if (returned != 0 || memcmp(out, c->due, 12) != 0 || memcmp(out + 12, before + 12, sizeof out - 12) != 0)
                    wrong_longer += differs(c->what, (long)length);
            }
        }
    if (guard_run(sheet_r, R_BYTES, trace, 20, ALL, NULL, 0) != 15)
        wrong_short += differs("no output", 0);
    tell("outputs of 0 to 11 bytes, 15 and as they were", short_ones + 1, wrong_short);
    tell("outputs of 12 to 80 bytes, as they were from byte 12 on", longer, wrong_longer);
}

/* Numbers 1 to 18 have a text each, of one line; no other number has. A word of each stands here by hand, so that no text has slipped to its neighbour. */
static void check_texts(void)
{
    static const char *const words[18] = {"cut off",       "mark",      "nor 2",      "0 to 3",     "not 0", "above 63",      "below u",  "already in the rule",
                                          "Q is an input", "left over", "the latest", "name is 64", "taken", "multiple of 5", "under 12", "shorter than the sheet",
                                          "no rule",       "longer than the output"};
    long count = 0, wrong = 0;
    for (uint32_t n = 1; n <= 18; n++, count++) {
        const char *text = guard_refusal_text(n);
        if (strstr(text, words[n - 1]) == NULL || strchr(text, '\n') != NULL || strcmp(text, "unknown refusal") == 0)
            wrong += differs("a refusal's text", n);
    }
    static const uint32_t unknown[] = {0, 19, 20, 23, 255, 256, 257, 274, 2147483648u, ALL};
    for (size_t i = 0; i < sizeof unknown / sizeof *unknown; i++, count++)
        if (strcmp(guard_refusal_text(unknown[i]), "unknown refusal") != 0)
            wrong += differs("the text of a number that is no refusal", (long)unknown[i]);
    tell("refusals' texts", count, wrong);
}

int main(int argc, char **argv)
{
    if (argc != 5) {
        fprintf(stderr, "usage: test CASES LONG SHEETS PLAYS, a file that cases.py wrote, long.txt, and files that sheets.py and playing.py wrote\n");
        return 2;
    }
    setvbuf(stdout, NULL, _IOLBF, 0); /* a fault ends the program: what was checked before it stays seen */
    alarm(120);                       /* and so does a call that does not return */
    read_cases(argv[1]);
    check_calls();
    check_outputs();
    check_texts();
    check_openings();
    check_traces();
    check_cases();
    check_long(argv[2]);
    check_sessions();
    check_pages();
    check_writing(argv[3]);
    check_playing(argv[4]);
    check_garbage();
    return failed;
}
