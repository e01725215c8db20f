/* What the host tests share: a printed line for each check, a stream of numbers, the rules of document 01's traces, the reference's cases, and memory at a page's edge. */
#ifndef HOST_H
#define HOST_H

#include "../../include/guard.h"

#include <stdio.h>
#include <stdlib.h>
#include <string.h>

#define ALL 4294967295u /* the largest budget, time and count */

/* ---- checks */

/* Prints what was checked and how often. Something wrong, or nothing checked at all, is a failure. */
void tell(const char *what, long count, long wrong);

/* Prints one difference, if few were printed before; answers 1, to be counted. */
long differs(const char *what, long number);

/* ---- numbers, the same ones in each run */

uint64_t number(void);
uint32_t below(uint32_t n);
void scramble(void *bytes, size_t length);

/* ---- answers */

guard_answer answer(uint8_t kind, uint8_t refusal, uint16_t mask, uint32_t place);
int same_answer(guard_answer a, guard_answer b);
uint32_t four_bytes(const uint8_t *bytes);

/* ---- rules T, R and N of document 01, "Traces to settle arguments", S, A, O and W of change 1, and E, F, G and H of change 2, each alone in its sheet */

#define T_BYTES 36
#define R_BYTES 34
#define N_BYTES 34
#define S_BYTES 41
#define A_BYTES 48
#define O_BYTES 34
#define W_BYTES 46
#define E_BYTES 36
#define F_BYTES 41
#define G_BYTES 41
#define H_BYTES 41
extern const uint8_t sheet_t[T_BYTES], sheet_r[R_BYTES], sheet_n[N_BYTES], sheet_s[S_BYTES], sheet_a[A_BYTES], sheet_o[O_BYTES], sheet_w[W_BYTES];
extern const uint8_t sheet_e[E_BYTES], sheet_f[F_BYTES], sheet_g[G_BYTES], sheet_h[H_BYTES];

/* ---- files that a script has written */

/* A file's bytes, which are kept; what can't be read ends the program. */
const uint8_t *file_bytes(const char *path, size_t *length);

/* Begins a file, whose next bytes and numbers are then taken; if they are not there, the program ends. */
void begin_file(const char *path);
const uint8_t *take(size_t n);
size_t take_two(void);
uint32_t take_four(void);
int file_ended(void);

/* ---- the cases that cases.py writes */

struct observation {
    int clock;
    uint32_t name, time;
    guard_answer due;
};

struct reference_case {
    uint32_t before; /* the taken count that the session's monitor starts from */
    const uint8_t *sheet, *log;
    size_t sheet_length, log_length;
    uint32_t budget;
    const uint8_t *due; /* the call's twelve bytes */
    guard_answer opened;
    size_t count; /* observations of the session */
    const uint8_t *list;
    guard_answer verdict; /* after the list */
    uint32_t taken;
};

extern struct reference_case *cases;
extern size_t case_count;

void read_cases(const char *path);
struct observation observation_of(const struct reference_case *c, size_t i);

/* Each holds one case to what is due, with its bytes where the caller has put them, and answers how much was wrong. */
long wrong_by_log(const struct reference_case *c, const uint8_t *sheet, const uint8_t *log, uint8_t *out, size_t out_length);
long wrong_opened(const struct reference_case *c, const uint8_t *sheet, guard_book *book, guard_monitor *monitor);
long wrong_live(const struct reference_case *c, const guard_book *book, guard_monitor *monitor);
int opens(const struct reference_case *c);

/* ---- memory with a forbidden page before and after it */

struct pages {
    uint8_t *start, *end;
};

struct pages pages_for(size_t length);
/* The first or the last `length` bytes between the forbidden pages. */
uint8_t *edge(struct pages p, int at_end, size_t length);
void read_only(struct pages p);
void writable(struct pages p);
/* Bytes at an edge, which then can only be read. */
const uint8_t *lend(struct pages p, int at_end, const uint8_t *bytes, size_t length);

/* Whole pages that can be written, and right behind them `beyond` bytes, also more than there is memory, that can't be touched: where these begin. */
uint8_t *forbidden_after(size_t room, size_t beyond);

/* ---- sessions */

/* The guard's own layout, known to these tests alone: where the four bytes of the taken count begin. */
#define TAKEN_AT 512
void set_taken(guard_monitor *monitor, uint32_t taken);
guard_answer observe(const guard_book *book, guard_monitor *monitor, struct observation o);

/* ---- the groups of checks */

void check_openings(void);
void check_traces(void);
void check_cases(void);
void check_long(const char *path);
void check_sessions(void);
void check_pages(void);
void check_writing(const char *path);
void check_playing(const char *path);
void check_garbage(void);

#endif
