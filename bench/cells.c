/* The guard of document 01 by hand with cells and masks, with the shuffled fragments of document 02, its ranges without an upper end, its sheet writer and its player: the sheet's reader, a rule's
 * step, observing, running a log, writing a sheet back and playing a round. Words in quotes are document 01's. */
#include "cells.h"

#include <stdbool.h>
#include <string.h>

enum { ONCE = 0, REPEATED = 1, TIMED = 2 };              /* kinds of rules */
enum { ANY = 1, MIXED = 2 };                             /* bits of a join: some of the ranges will do; shuffled */
enum { OF_P = 1, OF_Q = 2, SHUFFLED = 4, RELEASES = 8 }; /* flags of a cell; those of Q have a limit, a trigger is neither of P nor of Q */
enum { WHOLE = 0, OPEN = 1, BROKEN = 2, REFUSED = 3 };   /* answers */

/* How a rule stands. DUE is open with a deadline that runs: the rule's next event would have to be of Q and in time. */
enum { STANDS_WHOLE, STANDS_OPEN, STANDS_DUE, STANDS_BROKEN };

static inline bool has(uint64_t names, unsigned name)
{
    return names >> name & 1;
}

/* ---- the sheet */

/* A sheet, read field by field; `at` is the field's offset, and the first faulty field decides. */
typedef struct reader {
    const uint8_t *sheet;
    size_t length, at;
    uint64_t outputs;
    uint64_t used; /* the names of the rule so far */
    uint16_t version;
    uint8_t last_join;
    bool endless; /* a range may have no upper end */
    uint8_t fault;
} reader;

static bool refuse(reader *r, uint8_t fault)
{
    r->fault = fault;
    return false;
}

/* The value of a field of n bytes; the field is left for its checks, and `pass` goes behind it. */
static bool field(reader *r, size_t n, uint64_t *value)
{
    if (r->length - r->at < n)
        return refuse(r, 1);
    *value = 0;
    for (size_t i = n; i > 0; i--)
        *value = *value << 8 | r->sheet[r->at + i - 1];
    return true;
}

static bool pass(reader *r, size_t n)
{
    r->at += n;
    return true;
}

static bool exactly(reader *r, size_t n, uint64_t due, uint8_t fault)
{
    uint64_t x;
    if (!field(r, n, &x))
        return false;
    return x == due ? pass(r, n) : refuse(r, fault);
}

/* A count, a kind or a join. */
static bool between(reader *r, unsigned first, unsigned last, uint8_t *value)
{
    uint64_t x;
    if (!field(r, 1, &x))
        return false;
    if (x < first || x > last)
        return refuse(r, 4);
    *value = (uint8_t)x;
    return pass(r, 1);
}

/* A u or a v. A v may be 0, which is no upper end, where the version has that. */
static bool bound(reader *r, unsigned least, bool or_none, uint16_t *value)
{
    uint64_t x;
    if (!field(r, 2, &x))
        return false;
    if (x < least && !(or_none && x == 0))
        return refuse(r, 7);
    *value = (uint16_t)x;
    return pass(r, 2);
}

/* A trigger or a range's name: by document 02 "At a range name the order becomes 1, 6, 9, 8". At a trigger the rule has no name yet, so that 8 is not met. */
static bool name_field(reader *r, uint64_t wrong_way, uint8_t *name)
{
    uint64_t x;
    if (!field(r, 1, &x))
        return false;
    if (x >= CELLS_NAMES)
        return refuse(r, 6);
    if (has(wrong_way, (unsigned)x))
        return refuse(r, 9);
    if (has(r->used, (unsigned)x))
        return refuse(r, 8);
    *name = (uint8_t)x;
    r->used |= (uint64_t)1 << x;
    return pass(r, 1);
}

/* The version says which joins there are: 0 and 1, and from version 2 on the shuffled ones; and from version 2 on a range may have no upper end. */
static bool read_version(reader *r)
{
    uint64_t x;
    if (!field(r, 2, &x))
        return false;
    if (x != 1 && x != 2)
        return refuse(r, 3);
    r->version = (uint16_t)x;
    r->last_join = x == 1 ? 1 : 3;
    r->endless = x > 1;
    return pass(r, 2);
}

/* A rule that is read: its cells and what they are made of. */
typedef struct reading {
    cells_cell *cells;
    uint8_t kind, in_p, in_round; /* fragments in P, and in P and Q */
    uint8_t trigger;              /* 0 of a timed rule */
    uint32_t limit;
} reading;

/* A range's cell, of a fragment with `count` ranges; `c` has what all its cells have. */
static void put_cell(reading *rule, cells_cell c, bool any, unsigned count, unsigned range, unsigned name, uint16_t u, uint16_t v)
{
    unsigned every = (1u << count) - 1, bit = 1u << range;
    c.u = u, c.v = v, c.range = (uint8_t)range, c.bit = (uint8_t)bit;
    c.lacking = (uint8_t)((any ? 0 : every & ~bit) | (u > 1 ? bit : 0));
    c.full = (uint8_t)(~every | (v == 1 ? bit : 0));
    rule->cells[name] = c;
}

/* What the cells of a fragment of P or of Q have in common. */
static cells_cell fragment_cell(const reading *rule, unsigned f)
{
    bool of_q = f >= rule->in_p, first = f == 0;
    cells_cell c = {.fragment = (uint8_t)f, .before = (uint8_t)((first ? rule->in_round : f) - 1), .flags = of_q ? OF_Q : OF_P};
    uint8_t lacking = of_q ? STANDS_DUE : STANDS_OPEN, complete = lacking;
    if (f + 1u == rule->in_round)
        complete = STANDS_WHOLE;
    c.standing[0] = lacking, c.standing[1] = c.standing[2] = complete;
    if (rule->kind == TIMED && f + 1u == rule->in_p)
        c.standing[2] = STANDS_DUE; /* before, a longer P may come */
    return c;
}

static bool read_fragment(reader *r, reading *rule, unsigned f)
{
    uint8_t join, count, name;
    uint16_t u, v;
    cells_cell c = fragment_cell(rule, f);
    if (!between(r, 0, r->last_join, &join) || !between(r, 1, CELLS_RANGES, &count))
        return false;
    c.flags |= join & MIXED ? SHUFFLED : 0;
    c.join = join, c.count = count;
    for (unsigned i = 0; i < count; i++) {
        if (!name_field(r, c.flags & OF_Q ? ~r->outputs : 0, &name) || !bound(r, 1, false, &u) || !bound(r, u, r->endless, &v))
            return false;
        put_cell(rule, c, join & ANY, count, i, name, u, v);
    }
    return true;
}

/* A rule's eight bytes, after its kind and its count of fragments in P. */
static bool read_timed(reader *r, reading *rule)
{
    uint8_t in_q;
    uint64_t limit;
    if (!between(r, 1, 8, &in_q) || !exactly(r, 1, 0, 5) || !field(r, 4, &limit))
        return false;
    rule->in_round = rule->in_p + in_q;
    rule->limit = (uint32_t)limit;
    return pass(r, 4);
}

/* "A trigger counts as a last fragment of one range [1,1]." */
static bool read_requirement(reader *r, reading *rule)
{
    uint8_t trigger;
    if (!exactly(r, 1, 0, 5) || !name_field(r, r->outputs, &trigger) || !exactly(r, 4, 0, 5))
        return false;
    rule->in_round = rule->in_p + 1;
    rule->limit = 0;
    rule->trigger = trigger;
    cells_cell c = {.fragment = rule->in_p, .before = (uint8_t)(rule->in_p - 1), .flags = rule->kind == ONCE ? RELEASES : 0, .count = 1};
    put_cell(rule, c, false, 1, 0, trigger, 1, 1);
    return true;
}

static bool read_rule(reader *r, reading *rule)
{
    r->used = 0;
    if (!between(r, 0, 2, &rule->kind) || !between(r, 1, 8, &rule->in_p))
        return false;
    bool timed = rule->kind == TIMED;
    if (!(timed ? read_timed(r, rule) : read_requirement(r, rule)))
        return false;
    unsigned in_sheet = timed ? rule->in_round : rule->in_p;
    for (unsigned f = 0; f < in_sheet; f++)
        if (!read_fragment(r, rule, f))
            return false;
    return true;
}

/* A rule's eight bytes as one number. */
static uint64_t head_of(const reading *rule)
{
    uint8_t in_q = rule->kind == TIMED ? (uint8_t)(rule->in_round - rule->in_p) : 0;
    return rule->kind | (uint64_t)rule->in_p << 8 | (uint64_t)in_q << 16 | (uint64_t)rule->trigger << 24 | (uint64_t)rule->limit << 32;
}

static bool read_sheet(reader *r, cells_book *book)
{
    if (!exactly(r, 3, 0x424F4C, 2) || !read_version(r) || !field(r, 8, &r->outputs))
        return false;
    pass(r, 8);
    if (!between(r, 1, CELLS_RULES, &book->count))
        return false;
    book->version = r->version;
    book->outputs = r->outputs;
    memset(book->holders, 0, sizeof book->holders);
    for (unsigned k = 0; k < book->count; k++) {
        reading rule = {.cells = book->cells[k]};
        if (!read_rule(r, &rule))
            return false;
        book->last[k] = (uint8_t)(rule.in_round - 1);
        book->limits[k] = rule.limit;
        book->heads[k] = head_of(&rule);
        for (uint64_t names = r->used; names != 0; names &= names - 1)
            book->holders[__builtin_ctzll(names)] |= (uint16_t)(1u << k);
    }
    return r->at == r->length ? true : refuse(r, 10);
}

/* ---- one rule */

static inline bool late(const cells_rule_state *st, uint32_t limit, uint32_t time)
{
    return time > (uint64_t)st->end + limit;
}

/* One more event of a range of the fragment; false at an error. */
static inline bool goes_on(const cells_cell *c, cells_rule_state *st)
{
    unsigned lacking = st->lacking, full = st->full;
    if (full & c->bit)
        return false;
    if (!(c->flags & SHUFFLED) && st->latest != c->bit) { /* the block before is done with */
        if (lacking & st->latest)
            return false;
        full |= st->latest;
    }
    unsigned count = st->counts[c->range];
    count += count < UINT16_MAX;
    st->counts[c->range] = (uint16_t)count;
    st->lacking = (uint8_t)(count < c->u ? lacking | c->bit : lacking & ~c->bit);
    st->full = (uint8_t)(count == c->v ? full | c->bit : full); /* a count is never 0 here */
    return true;
}

/* The first event of a fragment. */
static inline void begin(const cells_cell *c, cells_rule_state *st)
{
    memset(st->counts, 0, sizeof st->counts);
    st->counts[c->range] = 1;
    st->fragment = c->fragment;
    st->lacking = c->lacking;
    st->full = c->full;
}

/* An event on one of the rule's names. A call of its own: inlined, gcc finds the cell's and the state's address anew at every use. */
static __attribute__((noinline)) unsigned step(const cells_cell *c, cells_rule_state *st, uint32_t limit, uint32_t time)
{
    if (c->flags & OF_Q && late(st, limit, time))
        return STANDS_BROKEN;
    if (c->fragment == st->fragment) {
        if (!goes_on(c, st))
            return STANDS_BROKEN;
    } else {
        if (st->fragment == CELLS_RELEASED)
            return STANDS_WHOLE; /* "Kind 0 is released by its first valid trigger." */
        if (c->before != st->fragment || st->lacking != 0)
            return STANDS_BROKEN;
        if (c->flags & RELEASES) {
            st->fragment = CELLS_RELEASED;
            return STANDS_WHOLE;
        }
        begin(c, st);
    }
    st->latest = c->bit;
    if (c->flags & OF_P)
        st->end = time;
    return c->standing[st->lacking != 0 ? 0 : st->full != 0xFF ? 1 : 2];
}

/* ---- observing */

static inline uint64_t answer(unsigned kind, unsigned refusal, uint16_t mask, uint32_t place)
{
    return kind | refusal << 8 | (uint64_t)mask << 16 | (uint64_t)place << 32;
}

static inline uint64_t refused(unsigned refusal)
{
    return answer(REFUSED, refusal, 0, 0);
}

static inline uint16_t broken_in(uint64_t marks) { return (uint16_t)marks; }
static inline uint16_t open_in(uint64_t marks) { return (uint16_t)(marks >> 16); }
static inline uint16_t due_in(uint64_t marks) { return (uint16_t)(marks >> 32); }

/* The rules whose deadline is past. */
static uint64_t overdue(const cells_book *book, const cells_monitor *m, unsigned due, uint32_t time)
{
    uint64_t broken = 0;
    for (; due != 0; due &= due - 1) {
        unsigned r = (unsigned)__builtin_ctz(due);
        if (late(&m->rules[r], book->limits[r], time))
            broken |= 1u << r;
    }
    return broken;
}

static inline uint64_t verdict(uint64_t marks, uint32_t taken)
{
    if (broken_in(marks) != 0)
        return answer(BROKEN, 0, broken_in(marks), taken);
    return answer(open_in(marks) != 0 ? OPEN : WHOLE, 0, open_in(marks), 0);
}

uint64_t cells_verdict(const cells_monitor *m)
{
    return verdict(m->marks, m->taken);
}

uint32_t cells_taken(const cells_monitor *m)
{
    return m->taken;
}

/* Only the rules that have the name or a deadline that runs are looked at; the others stay as they are. */
static inline uint64_t observe(const cells_book *book, cells_monitor *m, unsigned concerned, unsigned name, uint32_t time)
{
    static const uint64_t marks_of[] = {[STANDS_WHOLE] = 0, [STANDS_OPEN] = (uint64_t)1 << 16, [STANDS_DUE] = (uint64_t)0x10001 << 16, [STANDS_BROKEN] = 1};
    if (time < m->latest)
        return refused(11);
    if (m->taken == UINT32_MAX)
        return refused(13);
    uint64_t marks = m->marks & ~(concerned * (uint64_t)0x100010001);
    marks |= overdue(book, m, due_in(marks), time);
    for (unsigned todo = concerned; todo != 0; todo &= todo - 1) {
        unsigned r = (unsigned)__builtin_ctz(todo);
        marks |= marks_of[step(&book->cells[r][name], &m->rules[r], book->limits[r], time)] << r;
    }
    m->taken++;
    m->latest = time;
    m->marks = marks;
    return verdict(marks, m->taken);
}

uint64_t cells_event(const cells_book *book, cells_monitor *m, uint32_t name, uint32_t time)
{
    if (broken_in(m->marks) != 0)
        return cells_verdict(m);
    if (name >= CELLS_NAMES)
        return refused(12);
    return observe(book, m, book->holders[name], name, time);
}

uint64_t cells_clock(const cells_book *book, cells_monitor *m, uint32_t time)
{
    if (broken_in(m->marks) != 0)
        return cells_verdict(m);
    return observe(book, m, 0, 0, time);
}

/* Every rule is as after a whole round: the first fragment may begin, and the last takes no more. */
void cells_start(const cells_book *book, cells_monitor *m)
{
    memset(m, 0, sizeof *m);
    for (unsigned r = 0; r < book->count; r++) {
        m->rules[r].fragment = book->last[r];
        m->rules[r].full = 0xFF;
    }
}

uint64_t cells_open(cells_book *book, cells_monitor *m, const uint8_t *sheet, size_t length)
{
    cells_book made;
    reader r = {.sheet = sheet, .length = length};
    if (!read_sheet(&r, &made))
        return answer(REFUSED, r.fault, 0, (uint32_t)r.at);
    *book = made;
    cells_start(book, m);
    return answer(WHOLE, 0, 0, 0);
}

/* ---- running a log */

static void put(uint8_t *out, uint32_t x, size_t n)
{
    for (size_t i = 0; i < n; i++)
        out[i] = (uint8_t)(x >> 8 * i);
}

static void put_outcome(uint8_t *out, uint64_t said, uint16_t mask, uint32_t taken, uint32_t place)
{
    put(out, (uint8_t)said, 1);
    put(out + 1, (uint8_t)(said >> 8), 1);
    put(out + 2, mask, 2);
    put(out + 4, taken, 4);
    put(out + 8, place, 4);
}

static inline uint32_t time_at(const uint8_t *p)
{
    return p[0] | (uint32_t)p[1] << 8 | (uint32_t)p[2] << 16 | (uint32_t)p[3] << 24;
}

/* "Only a refusal or a break stops it before the budget or the log is used up." */
static void play(const cells_book *book, const uint8_t *log, uint32_t records, uint8_t *out)
{
    cells_monitor m;
    cells_start(book, &m);
    for (uint32_t i = 0; i < records; i++) {
        const uint8_t *record = log + 5 * (size_t)i;
        uint32_t time = time_at(record + 1);
        uint64_t said = record[0] == 0xFF ? cells_clock(book, &m, time) : cells_event(book, &m, record[0], time);
        if ((uint8_t)said == REFUSED) {
            put_outcome(out, said, open_in(m.marks), m.taken, 5 * i);
            return;
        }
        if ((uint8_t)said == BROKEN)
            break;
    }
    uint64_t said = cells_verdict(&m);
    put_outcome(out, said, (uint16_t)(said >> 16), m.taken, (uint32_t)(said >> 32));
}

uint32_t cells_run(const uint8_t *sheet, size_t sheet_length, const uint8_t *log, size_t log_length, uint32_t budget, uint8_t *out, size_t out_length)
{
    if (out_length < 12)
        return 15;
    cells_book book;
    reader r = {.sheet = sheet, .length = sheet_length};
    if (!read_sheet(&r, &book)) {
        put_outcome(out, answer(REFUSED, r.fault, 0, 0), 0, 0, (uint32_t)r.at);
        return 0;
    }
    if (log_length % 5 != 0 || log_length > UINT32_MAX) {
        put_outcome(out, refused(14), 0, 0, 0);
        return 0;
    }
    uint32_t records = (uint32_t)(log_length / 5);
    play(&book, log, budget < records ? budget : records, out);
    return 0;
}

/* ---- writing a sheet back */

/* The names by their places, since the cells are by names. */
typedef struct places {
    uint8_t names[CELLS_RULES][16][CELLS_RANGES];
} places;

static void put_places(const cells_book *book, places *p)
{
    for (unsigned name = 0; name < CELLS_NAMES; name++)
        for (unsigned todo = book->holders[name]; todo != 0; todo &= todo - 1) {
            unsigned r = (unsigned)__builtin_ctz(todo);
            const cells_cell *c = &book->cells[r][name];
            p->names[r][c->fragment][c->range] = (uint8_t)name;
        }
}

/* Fragments of a rule in the sheet: a trigger's is not there. */
static inline unsigned in_sheet(uint64_t head)
{
    return (uint8_t)(head >> 8) + (unsigned)(uint8_t)(head >> 16);
}

static size_t size_of(const cells_book *book, const places *p)
{
    size_t size = 14;
    for (unsigned r = 0; r < book->count; r++) {
        size += 8;
        for (unsigned f = 0; f < in_sheet(book->heads[r]); f++)
            size += 2 + 5 * (size_t)book->cells[r][p->names[r][f][0]].count;
    }
    return size;
}

/* A number's bytes, and where the next ones go. */
static inline uint8_t *append(uint8_t *out, uint64_t x, size_t n)
{
    for (size_t i = 0; i < n; i++)
        out[i] = (uint8_t)(x >> 8 * i);
    return out + n;
}

static uint8_t *append_fragment(uint8_t *out, const cells_cell *cells, const uint8_t *names)
{
    const cells_cell *first = &cells[names[0]];
    unsigned count = first->count;
    out = append(out, first->join, 1);
    out = append(out, count, 1);
    for (unsigned i = 0; i < count; i++) {
        out = append(out, names[i], 1);
        out = append(out, cells[names[i]].u, 2);
        out = append(out, cells[names[i]].v, 2);
    }
    return out;
}

int64_t cells_write(const cells_book *book, uint8_t *buffer, size_t length)
{
    places p;
    put_places(book, &p);
    size_t size = size_of(book, &p);
    if (length < size)
        return -16;
    uint8_t *out = append(buffer, 0x424F4C, 3);
    out = append(out, book->version, 2);
    out = append(out, book->outputs, 8);
    out = append(out, book->count, 1);
    for (unsigned r = 0; r < book->count; r++) {
        out = append(out, book->heads[r], 8);
        for (unsigned f = 0; f < in_sheet(book->heads[r]); f++)
            out = append_fragment(out, book->cells[r], p.names[r][f]);
    }
    return (int64_t)size;
}

/* ---- playing a round, as docs/PLAYING.md has it */

/* One fragment: how often each name has come, and as masks of the ranges those that have come, those that have their u, those that take no more, and the one that came last. */
typedef struct filling {
    size_t counts[CELLS_RANGES];
    unsigned begun, enough, full, last;
} filling;

static inline bool may_come(const filling *s, unsigned bit, bool shuffled)
{
    if (shuffled || s->last == bit)
        return !(s->full & bit);
    return !(s->begun & bit) && !(s->last & ~s->enough);
}

/* The range that is needed, or -1 if the fragment may be left. */
static inline int needed(const filling *s, unsigned every, bool any)
{
    unsigned lacking = every & ~s->enough, open = lacking & s->begun;
    if (open != 0)
        return __builtin_ctz(open);
    return lacking == 0 || (any && s->begun != 0) ? -1 : __builtin_ctz(lacking);
}

static inline void comes(filling *s, unsigned i, const cells_cell *c)
{
    size_t count = ++s->counts[i];
    s->begun |= c->bit;
    s->enough |= count >= c->u ? c->bit : 0;
    s->full |= count == c->v ? c->bit : 0; /* a count is never 0 here */
    s->last = c->bit;
}

/* The names of one rule by their places. */
typedef uint8_t round_names[16][CELLS_RANGES];

/* A pass over the round: the number of its records, or -18. They are written if there is an output. */
static int64_t pass_round(const cells_cell *cells, round_names names, unsigned fragments, uint32_t time, const uint8_t *choice, size_t choice_length, uint8_t *out, size_t room)
{
    size_t records = 0, at = 0;
    for (unsigned f = 0; f < fragments; f++) {
        const cells_cell *first = &cells[names[f][0]];
        unsigned count = first->count, every = (1u << count) - 1;
        bool any = first->join & ANY, shuffled = first->join & MIXED;
        filling s = {.last = 0};
        for (;; records++) {
            unsigned byte = at < choice_length ? choice[at] : 0;
            int i = (int)(byte % (count + 1)) - 1;
            at++;
            if (i < 0 || !may_come(&s, 1u << i, shuffled))
                i = needed(&s, every, any);
            if (i < 0)
                break;
            if (records == room)
                return -18;
            comes(&s, (unsigned)i, &cells[names[f][i]]);
            if (out != NULL) {
                out = append(out, names[f][i], 1);
                out = append(out, time, 4);
            }
        }
    }
    return (int64_t)records;
}

int64_t cells_play(const cells_book *book, uint32_t rule, uint32_t time, const uint8_t *choice, size_t choice_length, uint8_t *out, size_t out_length)
{
    if (rule >= book->count)
        return -17;
    const cells_cell *cells = book->cells[rule];
    round_names names;
    for (unsigned name = 0; name < CELLS_NAMES; name++)
        if (book->holders[name] >> rule & 1)
            names[cells[name].fragment][cells[name].range] = (uint8_t)name;
    unsigned fragments = book->last[rule] + 1u;
    int64_t records = pass_round(cells, names, fragments, time, choice, choice_length, NULL, out_length / 5);
    if (records >= 0)
        pass_round(cells, names, fragments, time, choice, choice_length, out, out_length / 5);
    return records;
}
