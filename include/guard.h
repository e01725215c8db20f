/* The guard for C and C++ hosts: one call over a stored log, a live session over memory that the host lends, the sheet of an opened book, written back, and a round of one of its rules, played.
 * Link with target/libguard.a, which `hosts/build` proves and writes (x86-64). docs/EMBEDDING.md says what a host does at each answer, what is proved, and what the
 * host must keep true; docs/SHEETS.md has the formats of sheets and logs, and every refusal with an example. */
#ifndef GUARD_H
#define GUARD_H

#include <stddef.h>
#include <stdint.h>

#ifdef __cplusplus
extern "C" {
#endif

/* ---- versions */

/* This header's library. It rises with each call that is added or changed, as opening is by the sheets that it reads and refuses, and with the memory that a host lends. From 5 on
 * v = 0 is read, 6 has guard_write, 7 has guard_play, and from 8 on a name of Q that is an input is refused by 9 where the rule has it already too. */
#define GUARD_LIBRARY_VERSION 8

/* The newest version of a sheet that this library reads; each older one is read too. Version 2 has shuffled fragments and ranges without an upper end. */
#define GUARD_SHEET_VERSION 2

/* The same two numbers of the library that is linked. */
uint32_t guard_library_version(void);
uint32_t guard_sheet_version(void);

/* What a host lends: a book in words of eight bytes, a monitor in bytes. */
#define GUARD_BOOK_WORDS 1106
#define GUARD_MONITOR_BYTES 528

/* The calls as the library has them: a book is so many words, a monitor so many bytes, and an answer's four fields are one number, lowest first; guard4_write and guard4_play
 * answer a refusal n as 2^64 - n. The number in their names is that of this layout, so that a header and a library of different layouts do not link. Use the functions below, whose names stay. */
uint32_t guard4_run(const uint8_t *sheet, size_t sheet_length, const uint8_t *log, size_t log_length, uint32_t budget, uint8_t *out, size_t out_length);
uint64_t guard4_open(const uint8_t *sheet, size_t sheet_length, uint64_t *book, uint8_t *monitor);
void guard4_start(uint8_t *monitor);
uint64_t guard4_event(const uint64_t *book, uint8_t *monitor, uint32_t name, uint32_t time);
uint64_t guard4_clock(const uint64_t *book, uint8_t *monitor, uint32_t time);
uint64_t guard4_verdict(const uint8_t *monitor);
uint32_t guard4_taken(const uint8_t *monitor);
uint64_t guard4_write(const uint64_t *book, uint8_t *buffer, size_t length);
uint64_t guard4_play(const uint64_t *book, uint32_t rule, uint32_t time, const uint8_t *choice, size_t choice_length, uint8_t *out, size_t out_length);

/* ---- answers */

enum {
    GUARD_WHOLE = 0,   /* every rule's trace is a match */
    GUARD_OPEN = 1,    /* no rule is broken; the mask has the rules that are open */
    GUARD_BROKEN = 2,  /* the mask has the rules that broke at the observation that `place` counts: stop the plugin */
    GUARD_REFUSED = 3  /* nothing has changed; `refusal` says why */
};

/* Refusals, "Where each refusal is found". 1 to 10 are a sheet's, 11 to 13 an observation's, 14 a log's, 15 an output's, 16 the buffer's of
 * guard_write, 17 and 18 those of guard_play. "At a range name the order becomes 1, 6, 9, 8": an input that is named in Q is 9, also where the rule has it already, and 8 is left for
 * names of P and for outputs. docs/SHEETS.md has an example of each, and `./run` takes its words from this table. */
enum {
    GUARD_TRUNCATED = 1,      /* a field doesn't fit in the bytes left */
    GUARD_MARK = 2,           /* the mark is not "LOB" */
    GUARD_VERSION = 3,        /* the version is neither 1 nor 2 */
    GUARD_VALUE = 4,          /* a count, kind or join outside its values (a join is 0 or 1 in version 1, 0 to 3 in version 2) */
    GUARD_NOT_ZERO = 5,       /* a Q count, trigger or t that is not 0 where 0 is due */
    GUARD_NAME = 6,           /* a trigger or a range's name above 63 */
    GUARD_BOUNDS = 7,         /* u is 0, or v < u (in version 2 a v of 0 is no upper end) */
    GUARD_NAME_TWICE = 8,     /* a range's name is already in the rule */
    GUARD_DIRECTION = 9,      /* a trigger that is an output, or a name of Q that is an input */
    GUARD_LEFT_OVER = 10,     /* bytes after the last rule */
    GUARD_TIME_FALLS = 11,    /* a time before the latest one */
    GUARD_NAME_UNKNOWN = 12,  /* a name of 64 or more */
    GUARD_COUNT_FULL = 13,    /* 4,294,967,295 observations are already taken */
    GUARD_LOG_LENGTH = 14,    /* the log's length is no multiple of 5, or above 4,294,967,295 bytes */
    GUARD_OUTPUT = 15,        /* the output has under 12 bytes */
    GUARD_BUFFER = 16,        /* the buffer is shorter than the sheet */
    GUARD_RULE = 17,          /* the book has no rule of this number */
    GUARD_ROUND = 18          /* the chosen round is longer than the output */
};

/* A refusal's text, in one line and without its place; "unknown refusal" for any other number, 0 too. */
static inline const char *guard_refusal_text(uint32_t number)
{
    static const char *const texts[] = {
        "the sheet is cut off: a field doesn't fit in the bytes left",
        "the sheet's mark is not \"LOB\"",
        "the sheet's version is neither 1 nor 2",
        "a count, kind or join is outside its values (a join is 0 or 1 in version 1, 0 to 3 in version 2)",
        "a Q count, trigger or t is not 0 where 0 is due",
        "a trigger or a range's name is above 63",
        "a range's u is 0, or its v is below u (in version 2 a v of 0 is no upper end)",
        "a range's name is already in the rule",
        "a trigger is an output, or a name of Q is an input",
        "bytes are left over after the last rule",
        "the observation's time is before the latest one",
        "the observation's name is 64 or more",
        "4,294,967,295 observations are already taken",
        "the log's length is no multiple of 5, or above 4,294,967,295",
        "the output has under 12 bytes",
        "the buffer is shorter than the sheet",
        "the book has no rule of this number",
        "the chosen round is longer than the output",
    };
    return number >= GUARD_TRUNCATED && number <= GUARD_ROUND ? texts[number - GUARD_TRUNCATED] : "unknown refusal";
}

/* ---- one call over a log */

#define GUARD_OUTPUT_BYTES 12
#define GUARD_SHEET_BYTES 5774 /* no accepted sheet is longer */
#define GUARD_RECORD_BYTES 5   /* a name 0 to 63, or FF for a clock reading; then the time, little-endian */

/* Runs a log under a sheet, from a fresh monitor, for at most `budget` records.
 * Returns 15 and writes nothing if out_length is below 12. Else returns 0, and out[0..11] are, little-endian: answer; refusal number or 0; mask (u16); taken (u32);
 * place (u32): k for broken, the field's or the record's offset for refused, else 0. Bytes of out from 12 on stay as they were. */
static inline uint32_t guard_run(const uint8_t *sheet, size_t sheet_length, const uint8_t *log, size_t log_length, uint32_t budget, uint8_t *out, size_t out_length)
{
    return guard4_run(sheet, sheet_length, log, log_length, budget, out, out_length);
}

/* ---- a live session
 * The host lends the memory of one book (a guard_book, which guard_open writes and nothing else changes) and of one monitor for each session under it (a guard_monitor).
 * What they hold is the guard's own: a host stores and copies it, and does not read it. Every bit pattern is safe: for a book or a monitor that these calls did not make,
 * or a monitor that has observed under another book, the verdict is free, the call returns, and it writes nothing but the monitor. Sheet, book and monitor do not overlap.
 * Threads may share an opened book; a monitor belongs to one thread at a time. */

typedef struct guard_book {
    uint64_t words[GUARD_BOOK_WORDS];
} guard_book;

typedef struct guard_monitor {
    uint8_t bytes[GUARD_MONITOR_BYTES];
} guard_monitor;

/* answer and refusal as above; mask: bit r is rule r of the sheet, in file order from 0, for open and broken, else 0; place: k for broken, the field's offset for a refused
 * sheet, else 0 */
typedef struct guard_answer {
    uint8_t answer;
    uint8_t refusal;
    uint16_t mask;
    uint32_t place;
} guard_answer;

static inline guard_answer guard_answer_of(uint64_t word)
{
    guard_answer a;
    a.answer = (uint8_t)word;
    a.refusal = (uint8_t)(word >> 8);
    a.mask = (uint16_t)(word >> 16);
    a.place = (uint32_t)(word >> 32);
    return a;
}

/* Reads a sheet into *book and makes *monitor a fresh monitor. The answer is whole, or the sheet's refusal with the faulty field's offset: then neither is changed. */
static inline guard_answer guard_open(guard_book *book, guard_monitor *monitor, const uint8_t *sheet, size_t sheet_length)
{
    return guard_answer_of(guard4_open(sheet, sheet_length, book->words, monitor->bytes));
}

/* Makes *monitor a fresh monitor, whatever it was: a second session under a book, or the same one from the start. It is the same for every book. */
static inline void guard_start(guard_monitor *monitor)
{
    guard4_start(monitor->bytes);
}

/* One call between host and plugin, at a time in milliseconds. A name of 64 or more is refused (12), a log's FF too, and so is a time before the latest one (11). After a
 * break every observation gets the same answer. */
static inline guard_answer guard_event(const guard_book *book, guard_monitor *monitor, uint32_t name, uint32_t time)
{
    return guard_answer_of(guard4_event(book->words, monitor->bytes, name, time));
}

/* A time alone: what a host's timer calls, so that a deadline is noticed while no call is made. */
static inline guard_answer guard_clock(const guard_book *book, guard_monitor *monitor, uint32_t time)
{
    return guard_answer_of(guard4_clock(book->words, monitor->bytes, time));
}

/* The verdict that the monitor holds: whole, open or broken. */
static inline guard_answer guard_verdict(const guard_monitor *monitor)
{
    return guard_answer_of(guard4_verdict(monitor->bytes));
}

/* How many observations the monitor has taken: all but the refused ones and those after a break. */
static inline uint32_t guard_taken(const guard_monitor *monitor)
{
    return guard4_taken(monitor->bytes);
}

/* ---- a book written back, and a round of one of its rules */

/* How many bytes or records were written, or minus a refusal's number. */
static inline int64_t guard_count_of(uint64_t word)
{
    return word >> 63 ? -(int64_t)~word - 1 : (int64_t)word;
}

/* Writes the sheet of a book that guard_open made into the buffer: its own bytes, in its own version. The answer is their number, and later bytes of the buffer stay as they were.
 * Or it is -16, and nothing is written: the buffer is shorter than the sheet. Just the sheet's length is enough, and GUARD_SHEET_BYTES always is. The written bytes open into the same
 * book. Book and buffer do not overlap. For a book that guard_open did not make the number and the bytes are free: the call returns, the number is -16 or at most `length`, and nothing past
 * so many bytes of the buffer is written. */
static inline int64_t guard_write(const guard_book *book, uint8_t *buffer, size_t length)
{
    return guard_count_of(guard4_write(book->words, buffer, length));
}

/* Plays the plugin, and the host's own calls too: writes one round of a rule of a book that guard_open made into the output, as log records of GUARD_RECORD_BYTES each, all at this time. The rule
 * is its number in the sheet, in file order from 0. Every choice gives a round that matches, and missing choice bytes count as 0; docs/PLAYING.md says which bytes pick which round. The answer is
 * the number of records, and later bytes of the output stay as they were. Or it is a refusal, and nothing is written: -17, which is looked at first, the book has no rule of this number; -18, the
 * round is longer than the output. Book, choice and output do not overlap. For a book that guard_open did not make the names are free: the call returns, and the number is -17, -18 or at most
 * out_length / 5. */
static inline int64_t guard_play(const guard_book *book, uint32_t rule, uint32_t time, const uint8_t *choice, size_t choice_length, uint8_t *out, size_t out_length)
{
    return guard_count_of(guard4_play(book->words, rule, time, choice, choice_length, out, out_length));
}

#ifdef __cplusplus
}
#endif

#endif
