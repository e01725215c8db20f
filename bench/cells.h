/* The guard of document 01 written by hand in C with the proved guard's own design: a cell for each name of a rule, masks of the ranges, and no loop over them. hand.h has the plain
 * one. Nothing is made for one sheet alone. */
#ifndef CELLS_H
#define CELLS_H

#include <stddef.h>
#include <stdint.h>

enum { CELLS_RULES = 16, CELLS_RANGES = 8, CELLS_NAMES = 64 };

/* What an event on a name is to a rule that has it: an event of one range of one fragment. */
typedef struct cells_cell {
    _Alignas(16) uint16_t u; /* sixteen bytes a cell, so that it is found by a shift */
    uint16_t v;            /* 0: no upper end */
    uint8_t fragment;      /* its number in the round; "A trigger counts as a last fragment of one range [1,1]." */
    uint8_t before;        /* the number of the fragment before it: "the first fragment follows the last" */
    uint8_t range, bit;    /* the range's number in the fragment, and its bit in the two masks */
    uint8_t flags;
    uint8_t lacking, full; /* what the two masks are if this event begins the fragment */
    uint8_t standing[3];   /* of the rule after this event: the fragment lacks something; it may be followed; it may, and takes no more */
    uint8_t join, count;   /* of the fragment, as the sheet has them, and of a trigger all of one */
} cells_cell;

typedef struct cells_book {
    uint8_t count;                              /* of rules */
    uint8_t last[CELLS_RULES];                  /* the number of the round's last fragment */
    uint32_t limits[CELLS_RULES];               /* t */
    uint16_t holders[CELLS_NAMES];              /* bit r: rule r has this name */
    cells_cell cells[CELLS_RULES][CELLS_NAMES]; /* made for the names that the rule has */
    uint16_t version;                           /* of the sheet, which writing gives back, */
    uint64_t outputs;                           /* its outputs, */
    uint64_t heads[CELLS_RULES];                /* and the eight bytes of each rule */
} cells_book;

/* Of a rule. The two masks say all that an event asks of the eight recogniser states: `full` has the ranges to which one more event is an error, `lacking` those to which the next
 * fragment's first event is one. */
typedef struct cells_rule_state {
    uint16_t counts[CELLS_RANGES]; /* 65,535 and more are the same, and no bound is above that */
    uint32_t end;     /* of P */
    uint8_t fragment; /* its number, or CELLS_RELEASED */
    uint8_t latest;   /* the bit of the range whose event came last */
    uint8_t lacking, full;
} cells_rule_state;

enum { CELLS_RELEASED = 16 };

typedef struct cells_monitor {
    cells_rule_state rules[CELLS_RULES];
    uint32_t taken, latest;
    uint64_t marks; /* the rules that broke, 16 bits, those that are open, and those whose deadline runs */
} cells_monitor;

/* Same arguments, result and twelve bytes as guard_run. */
uint32_t cells_run(const uint8_t *sheet, size_t sheet_length, const uint8_t *log, size_t log_length, uint32_t budget, uint8_t *out, size_t out_length);

/* The live session. Each answer is answer | refusal << 8 | mask << 16 | place << 32, as in include/guard.h. A refused sheet changes neither book nor monitor. */
uint64_t cells_open(cells_book *book, cells_monitor *m, const uint8_t *sheet, size_t length);
void cells_start(const cells_book *book, cells_monitor *m);
uint64_t cells_event(const cells_book *book, cells_monitor *m, uint32_t name, uint32_t time);
uint64_t cells_clock(const cells_book *book, cells_monitor *m, uint32_t time);
uint64_t cells_verdict(const cells_monitor *m);
uint32_t cells_taken(const cells_monitor *m);

/* The sheet's own bytes: their number, or -16 and nothing is written, as guard_write. */
int64_t cells_write(const cells_book *book, uint8_t *buffer, size_t length);

/* A round of a rule: the number of its records, or -17 or -18 and nothing is written, as guard_play. */
int64_t cells_play(const cells_book *book, uint32_t rule, uint32_t time, const uint8_t *choice, size_t choice_length, uint8_t *out, size_t out_length);

#endif
