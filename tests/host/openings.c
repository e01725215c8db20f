/* Sheets by hand: each refusal of "Where each refusal is found" with its place, by guard_open and by guard_run. The sheets are those of rules R, T, D and, in version 2, S and E with one byte
 * changed. */
#include "host.h"

struct opening {
    const uint8_t *sheet;
    size_t length, at;
    uint8_t byte, refusal;
    uint32_t place;
};

/* D: kind 2, P = {0, 3} all, Q = 1 then 2, bounds [1,1], t = 10; 1, 2 and 3 are outputs, so that P has an input and an output. */
#define D_BYTES 48
static const uint8_t sheet_d[D_BYTES] = {
    0x4C, 0x4F, 0x42, 1, 0, 14, 0, 0, 0, 0, 0, 0, 0, 1, /* outputs at 5 */
    2, 1, 2, 0, 10, 0, 0, 0,                            /* 14: kind, counts, trigger, t */
    0, 2, 0, 1, 0, 1, 0, 3, 1, 0, 1, 0,                 /* 22: P, its names at 24 and 29 */
    0, 1, 1, 1, 0, 1, 0,                                /* 34: Q, its names at 36 */
    0, 1, 2, 1, 0, 1, 0                                 /* 41: and at 43 */
};

#define T sheet_t, T_BYTES
#define R sheet_r, R_BYTES
#define S sheet_s, S_BYTES
#define E sheet_e, E_BYTES
#define D sheet_d, D_BYTES

static const struct opening openings[] = {
    {R, 0, 0x4C, 0, 0},
    {T, 0, 0x4C, 0, 0},
    {R, 2, 0x43, 2, 0},    /* mark */
    {R, 3, 0, 3, 3},       /* version 0 */
    {R, 3, 2, 0, 0},       /* version 2, in which R is the same rule */
    {R, 3, 3, 3, 3},       /* "refusal 3 is for versions other than 1 and 2" */
    {S, 3, 3, 3, 3},
    {R, 4, 1, 3, 3},       /* version 257 */
    {S, 4, 1, 3, 3},       /* version 258 */
    {R, 13, 0, 4, 13},     /* no rule */
    {R, 13, 17, 4, 13},    /* seventeen */
    {R, 14, 3, 4, 14},     /* kind */
    {R, 15, 0, 4, 15},     /* fragments in P */
    {R, 15, 9, 4, 15},
    {T, 16, 0, 4, 16},     /* fragments in Q, kind 2 */
    {R, 22, 2, 4, 22},     /* joins 2 and 3 in version 1 */
    {R, 22, 3, 4, 22},
    {S, 3, 1, 4, 22},
    {S, 22, 0, 0, 0},      /* joins 0 to 3 in version 2, and no other */
    {S, 22, 1, 0, 0},
    {S, 22, 3, 0, 0},
    {S, 22, 4, 4, 22},
    {S, 22, 255, 4, 22},
    {S, 34, 2, 0, 0},      /* a shuffled fragment of one range, in Q */
    {S, 34, 4, 4, 34},
    {R, 23, 0, 4, 23},     /* ranges */
    {R, 23, 9, 4, 23},
    {R, 16, 9, 5, 16},     /* "a Q count of 9 in kind 1 is 5" */
    {T, 17, 70, 5, 17},    /* "a trigger of 70 in kind 2 is 5" */
    {R, 21, 1, 5, 18},     /* t in kind 1 */
    {R, 17, 64, 6, 17},    /* trigger */
    {R, 24, 64, 6, 24},    /* range's name */
    {R, 25, 0, 7, 25},     /* u is 0 */
    {R, 27, 0, 7, 27},     /* v < u */
    {S, 27, 0, 0, 0},      /* v = 0 is no upper end in version 2 */
    {S, 32, 0, 0, 0},      /* in the second range too, */
    {S, 39, 0, 0, 0},      /* and in Q */
    {E, 3, 1, 7, 27},      /* v = 0 in version 1 */
    {E, 25, 0, 7, 25},     /* "u = 0 still meets it": at u, whatever v is */
    {E, 25, 255, 0, 0},    /* 255 or more */
    {E, 27, 1, 7, 27},     /* 0 < v < u */
    {E, 27, 2, 0, 0},      /* v = u */
    {S, 25, 3, 7, 27},     /* u = 3, v = 2 */
    {R, 29, 0, 8, 29},     /* a name twice */
    {R, 24, 2, 8, 24},     /* trigger and range */
    {T, 31, 0, 9, 31},     /* "a Q name that is an input and already in the rule: 8 becomes 9" */
    {R, 5, 4, 9, 17},      /* the trigger is an output */
    {T, 5, 0, 9, 31},      /* a name of Q is an input */
    {T, 5, 3, 0, 0},       /* "a trigger of 0 in kind 2 is right even if name 0 is an output" */
    {D, 13, 1, 0, 0},      /* "At a range name the order becomes 1, 6, 9, 8" */
    {D, 36, 0, 9, 36},     /* an input of P in Q's first fragment, */
    {D, 43, 0, 9, 43},     /* and in its last */
    {D, 43, 4, 9, 43},     /* an input that the rule has not */
    {D, 43, 64, 6, 43},    /* no name at all, which is neither */
    {D, 43, 255, 6, 43},
    {D, 43, 1, 8, 43},     /* an output twice in Q */
    {D, 43, 3, 8, 43},     /* an output of P, */
    {D, 5, 6, 0, 0},       /* which might as well be an input there */
    {D, 29, 0, 8, 29},     /* an input twice in P, where no name is 9 */
    {D, 24, 3, 8, 29},     /* an output twice in P */
    {D, 5, 12, 9, 36},     /* Q's 1 as an input, once */
    {R, 13, 2, 1, R_BYTES} /* a second rule is not there */
};

/* Both calls on one sheet: the refusal and its place, or a whole book. */
static long wrong_sheet(const uint8_t *sheet, size_t length, uint8_t refusal, uint32_t place)
{
    static guard_book book;
    guard_monitor monitor;
    guard_answer due = answer(refusal ? GUARD_REFUSED : GUARD_WHOLE, refusal, 0, place);
    const uint8_t bytes[12] = {due.answer, refusal, 0, 0, 0, 0, 0, 0, (uint8_t)place, (uint8_t)(place >> 8), 0, 0};
    uint8_t out[12];
    uint32_t returned = guard_run(sheet, length, NULL, 0, ALL, out, 12);
    return !same_answer(guard_open(&book, &monitor, sheet, length), due) || returned != 0 || memcmp(out, bytes, 12) != 0;
}

/* "1 field doesn't fit in the bytes left", at the field's offset: each beginning of rule R's sheet. */
static void check_cut_off(void)
{
    static const uint8_t fields[] = {0, 3, 5, 13, 14, 15, 16, 17, 18, 22, 23, 24, 25, 27, 29, 30, 32, R_BYTES};
    long wrong = wrong_sheet(NULL, 0, GUARD_TRUNCATED, 0);
    for (uint32_t length = 0, field = 0; length < R_BYTES; length++) {
        field += length == fields[field + 1];
        if (wrong_sheet(sheet_r, length, GUARD_TRUNCATED, fields[field]))
            wrong += differs("a sheet cut off", length);
    }
    tell("sheets cut off", R_BYTES + 1, wrong);
}

/* The library's book and monitor are as long as the header's: opening writes every word of the one and every byte of the other, whatever stood there. It writes nothing past them, which
 * pages.c sees. */
static void check_lengths(void)
{
    static guard_book books[2];
    guard_monitor monitors[2];
    memset(books, 0, sizeof books);
    memset(monitors, 0, sizeof monitors);
    memset(&books[1], 0xFF, sizeof *books);
    memset(&monitors[1], 0xFF, sizeof *monitors);
    long count = 0, wrong = 0;
    for (int i = 0; i < 2; i++)
        guard_open(&books[i], &monitors[i], sheet_r, R_BYTES);
    for (size_t i = 0; i < GUARD_BOOK_WORDS; i++, count++)
        wrong += books[0].words[i] != books[1].words[i];
    for (size_t i = 0; i < GUARD_MONITOR_BYTES; i++, count++)
        wrong += monitors[0].bytes[i] != monitors[1].bytes[i];
    tell("words of a book and bytes of a monitor that opening writes", count, wrong);
}

void check_openings(void)
{
    long count = 0, wrong = 0;
    for (size_t i = 0; i < sizeof openings / sizeof *openings; i++, count++) {
        const struct opening *o = &openings[i];
        uint8_t sheet[D_BYTES]; /* the longest of them */
        memcpy(sheet, o->sheet, o->length);
        sheet[o->at] = o->byte;
        if (wrong_sheet(sheet, o->length, o->refusal, o->place))
            wrong += differs("a sheet by hand", (long)i);
    }
    uint8_t longer[R_BYTES + 3] = {0};
    memcpy(longer, sheet_r, R_BYTES);
    for (size_t length = R_BYTES + 1; length <= sizeof longer; length++, count++)
        wrong += wrong_sheet(longer, length, GUARD_LEFT_OVER, R_BYTES);
    count++;
    wrong += wrong_sheet(sheet_d, 43, GUARD_TRUNCATED, 43); /* a name of Q that is not there */
    tell("sheets by hand", count, wrong);
    check_cut_off();
    check_lengths();
}
