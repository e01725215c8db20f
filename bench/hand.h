/* The guard of document 01 written by hand in C: what the benchmark holds the proved guard against. A set of names for each fragment and a loop over its ranges at each event, as the
 * papers' monitors have it; nothing made for one sheet alone. */
#ifndef HAND_H
#define HAND_H

#include <stdbool.h>
#include <stddef.h>
#include <stdint.h>

enum { HAND_RULES = 16, HAND_FRAGMENTS = 16, HAND_RANGES = 8, HAND_NAMES = 64 };

typedef struct hand_range {
    uint8_t name;
    uint16_t u, v; /* v = 0: no upper end */
} hand_range;

typedef struct hand_fragment {
    uint64_t names; /* bit n: name n is in a range of this fragment */
    bool any;       /* joined any, else all */
    bool shuffled;  /* else each block is in a row */
    uint8_t count;  /* of ranges */
    hand_range ranges[HAND_RANGES];
} hand_fragment;

typedef struct hand_rule {
    uint8_t kind;
    uint8_t in_p;     /* fragments in P */
    uint8_t in_round; /* fragments in P and Q; "A trigger counts as a last fragment of one range [1,1]." */
    uint32_t limit;   /* t */
    hand_fragment fragments[HAND_FRAGMENTS];
} hand_rule;

typedef struct hand_book {
    uint8_t count; /* of rules */
    hand_rule rules[HAND_RULES];
    uint16_t holders[HAND_NAMES]; /* bit r: rule r has this name */
    uint16_t version;             /* of the sheet, which writing gives back, */
    uint64_t outputs;             /* and its outputs */
} hand_book;

/* "The monitor's state holds, for each rule, its fragment number, eight recogniser states, one count and the end time of P"; by document 02 "eight counts for a fragment
 * where it kept one". */
typedef struct hand_rule_state {
    uint8_t fragment;
    uint8_t states[HAND_RANGES];
    uint16_t counts[HAND_RANGES]; /* 0 of a range that has not begun; 65,535 and more are the same, and no bound is above that */
    uint32_t end;
} hand_rule_state;

typedef struct hand_monitor {
    hand_rule_state rules[HAND_RULES];
    uint32_t taken, latest;
    uint8_t verdict; /* an answer other than refused */
    uint16_t mask;   /* the open rules, or those that broke */
    uint16_t dues;   /* the rules whose deadline runs */
} hand_monitor;

/* Same arguments, result and twelve bytes as guard_run. */
uint32_t hand_run(const uint8_t *sheet, size_t sheet_length, const uint8_t *log, size_t log_length, uint32_t budget, uint8_t *out, size_t out_length);

/* The live session. Each answer is answer | refusal << 8 | mask << 16 | place << 32, as in include/guard.h. A refused sheet changes neither book nor monitor. */
uint64_t hand_open(hand_book *book, hand_monitor *m, const uint8_t *sheet, size_t length);
void hand_start(const hand_book *book, hand_monitor *m);
uint64_t hand_event(const hand_book *book, hand_monitor *m, uint32_t name, uint32_t time);
uint64_t hand_clock(const hand_book *book, hand_monitor *m, uint32_t time);
uint64_t hand_verdict(const hand_monitor *m);
uint32_t hand_taken(const hand_monitor *m);

/* The sheet's own bytes: their number, or -16 and nothing is written, as guard_write. */
int64_t hand_write(const hand_book *book, uint8_t *buffer, size_t length);

/* A round of a rule: the number of its records, or -17 or -18 and nothing is written, as guard_play. */
int64_t hand_play(const hand_book *book, uint32_t rule, uint32_t time, const uint8_t *choice, size_t choice_length, uint8_t *out, size_t out_length);

#endif
