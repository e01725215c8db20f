/* What is measured: the proved guard, the three written by hand, and a call that does nothing. */
#ifndef CONTESTANTS_H
#define CONTESTANTS_H

#include "../include/guard.h"
#include "cells.h"
#include "hand.h"

/* bench/hand.rs: the same calls as hand.h's, over memory that the host lends and does not read. */
enum { HAND_RS_BOOK_WORDS = 2560, HAND_RS_MONITOR_WORDS = 66 };

typedef struct hand_rs_book {
    uint64_t words[HAND_RS_BOOK_WORDS];
} hand_rs_book;

typedef struct hand_rs_monitor {
    uint64_t words[HAND_RS_MONITOR_WORDS];
} hand_rs_monitor;

uint32_t hand_rs_run(const uint8_t *sheet, size_t sheet_length, const uint8_t *log, size_t log_length, uint32_t budget, uint8_t *out, size_t out_length);
uint64_t hand_rs_open(hand_rs_book *book, hand_rs_monitor *m, const uint8_t *sheet, size_t length);
uint64_t hand_rs_event(const hand_rs_book *book, hand_rs_monitor *m, uint32_t name, uint32_t time);
uint64_t hand_rs_clock(const hand_rs_book *book, hand_rs_monitor *m, uint32_t time);
uint64_t hand_rs_verdict(const hand_rs_monitor *m);
uint32_t hand_rs_taken(const hand_rs_monitor *m);
int64_t hand_rs_write(const hand_rs_book *book, uint8_t *buffer, size_t length);
int64_t hand_rs_play(const hand_rs_book *book, uint32_t rule, uint32_t time, const uint8_t *choice, size_t choice_length, uint8_t *out, size_t out_length);

/* bench/none.c: a guard that does nothing. */
typedef struct none_book {
    uint8_t none;
} none_book;

typedef struct none_monitor {
    uint8_t none;
} none_monitor;

uint64_t none_event(const none_book *book, none_monitor *m, uint32_t name, uint32_t time);
uint64_t none_clock(const none_book *book, none_monitor *m, uint32_t time);

/* One book and one monitor of each. */
typedef struct lent {
    guard_book guard_book;
    guard_monitor guard_monitor;
    hand_book hand_book;
    hand_monitor hand_monitor;
    hand_rs_book hand_rs_book;
    hand_rs_monitor hand_rs_monitor;
    cells_book cells_book;
    cells_monitor cells_monitor;
    none_book none_book;
    none_monitor none_monitor;
} lent;

#endif
