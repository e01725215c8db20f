/* What the files of explain share. sheet.c reads a sheet's fields again; names.c reads words for its names; ask.c puts questions to copies of the monitor; words.c prints
 * rules and fields; verdict.c runs the log and says what came of it; main.c has the arguments and the files. */
#ifndef EXPLAIN_H
#define EXPLAIN_H

#include "guard.h"

#define RULES 16
#define FRAGMENTS 8 /* of an ordering, at most */
#define RANGES 8    /* of a fragment, at most */
#define NAMES 64
#define TIMED 2     /* the kind of a timed implication */
#define VERSIONS 2  /* of sheets: 1 and 2 */
#define ANY 1       /* a join's bits: some of the ranges are enough, */
#define SHUFFLED 2  /* and their blocks are mixed, from version 2 on */
#define NO_UPPER_END 0 /* as v: u times or more, from version 2 on */
#define CLOCK 0xFFu /* a record's name where it is a clock reading */

struct bytes {
    uint8_t *at;
    size_t length;
};

uint64_t little_endian(const uint8_t *bytes, size_t size);

/* ---- a sheet, as "The sheet" of document 01 lays it out */

struct range {
    uint8_t name;
    uint16_t u, v;
};

struct fragment {
    uint8_t join, count; /* join: 0 all, 1 any, 2 all shuffled, 3 any shuffled */
    struct range ranges[RANGES];
};

struct rule {
    uint8_t kind, p_count, q_count, trigger;
    uint32_t t;
    struct fragment fragments[2 * FRAGMENTS]; /* P's, then Q's */
};

/* The fields of a sheet. Those from KIND on stand in a rule, from JOIN on in a fragment, from NAME on in a range; LEFT_OVER is what follows the last rule. */
enum what { MARK, VERSION, OUTPUTS, RULE_COUNT, LEFT_OVER, KIND, P_COUNT, Q_COUNT, TRIGGER, T, JOIN, RANGE_COUNT, NAME, U, V };

/* A field and where it stands. Fragments and ranges count from 1, rules from 0. */
struct field {
    enum what what;
    size_t at, size, left; /* its offset, its length, and how many bytes the sheet has from there on */
    uint64_t value;        /* of the bytes that are there */
    unsigned version, rule, kind, in_q, fragment, fragments, range, ranges;
    unsigned u; /* before a v */
};

struct sheet {
    unsigned version; /* 0 until it is read */
    uint64_t outputs;
    unsigned count, read; /* rules by the sheet's count, and those that were read to their end */
    struct rule rules[RULES];
    struct field last; /* the field where reading has ended */
    int complete;      /* every field was read, and no byte is left over */
};

#define NO_PLACE SIZE_MAX

/* Reads the fields up to the one at `place`, which is looked at and not used; all of them if that is NO_PLACE. Every field is held to the bytes left. */
void read_sheet(struct sheet *sheet, struct bytes file, size_t place);

/* Sets of names, one bit a name: those of a rule, and those of all the rules read. */
uint64_t names_of(const struct rule *rule);
uint64_t names_of_sheet(const struct sheet *sheet);
int has(uint64_t names, unsigned name);

/* ---- words for names */

struct word {
    const char *at;
    int length; /* 0: the name has none, and its number stands for it */
};

struct names {
    struct word words[NAMES];
    uint64_t given, outputs; /* names that the file has, and those that it has as outputs */
};

/* Takes the lines "in 3 recalc" and "out 5 finish" and passes over all others. NULL, or what is wrong at *line. The words point into the file. */
const char *read_names(struct names *names, struct bytes file, size_t *line);

/* ---- questions to the guard */

/* A book, and a monitor that has taken a log's records up to the last one that is a rule's own, at the latest time. For the rule, later records are times alone, and a
 * question has a time of its own: so lateness is seen also where a clock reading or a foreign event has come in between. */
struct state {
    guard_book book;
    guard_monitor monitor;
    uint32_t latest;
};

struct record {
    unsigned name; /* or CLOCK */
    uint32_t time;
};

struct record record_of(struct bytes log, size_t index);

/* The time of the last of so many records, 0 if there is none. */
uint32_t latest_time(struct bytes log, size_t records);

/* The state after so many records, none of which is refused or breaks a rule, for the rule with these names. */
void replay(struct state *state, struct bytes log, size_t records, uint64_t own);

/* Whether the observation leaves the rule unbroken, at the latest time or later. The state stays as it is. */
int keeps(const struct state *state, unsigned rule, struct record record);

/* The last time up to `until` at which the observation leaves the rule unbroken. At the latest time it does. */
uint32_t last_kept(const struct state *state, unsigned rule, unsigned name, uint32_t until);

/* ---- printing */

void print_name(const struct names *names, unsigned name);
void print_record(const struct names *names, struct record record);
void print_sheet(const struct names *names, const struct sheet *sheet);
void print_rule(const struct names *names, const struct sheet *sheet, unsigned rule);
void print_field(const struct names *names, const struct field *field);

/* ---- all of it */

enum status { WHOLE_OR_OPEN, BROKEN, REFUSED, COULD_NOT_RUN };

/* guard_run's five numbers */
struct verdict {
    unsigned answer, refusal, mask;
    uint32_t taken, place;
};

struct desk {
    struct bytes book, log;
    struct names names;
    struct sheet sheet;
    struct state state;
    struct verdict verdict;
};

enum status explain(struct desk *desk);

#endif
