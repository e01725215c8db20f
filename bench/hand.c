/* The guard of document 01 by hand, with the shuffled fragments of document 02, its ranges without an upper end, its sheet writer and its player: the sheet's reader, the six-state recogniser,
 * observing, running a log, writing a sheet back and playing a round. Words in quotes are document 01's. */
#include "hand.h"

#include <string.h>

enum { ONCE = 0, REPEATED = 1, TIMED = 2 };                                       /* kinds of rules */
enum { ANY = 1, MIXED = 2 };                                                      /* bits of a join: some of the ranges will do; shuffled */
enum { IDLE = 0, NOT_BEGUN = 1, WAITING = 2, COUNTING = 3, DONE = 4, ERROR = 5 }; /* states of a range */
enum { WHOLE = 0, OPEN = 1, BROKEN = 2, REFUSED = 3 };                            /* answers */

static inline bool has(uint64_t names, unsigned name)
{
    return names >> name & 1;
}

/* ---- the sheet */

/* A sheet, read field by field; `at` is the field's offset, and the first faulty field decides. */
typedef struct reader {
    const uint8_t *sheet;
    size_t length, at;
    uint64_t outputs;
    uint64_t used; /* the names of the rule so far */
    uint16_t version;
    uint8_t last_join;
    bool endless; /* a range may have no upper end */
    uint8_t fault;
} reader;

static bool refuse(reader *r, uint8_t fault)
{
    r->fault = fault;
    return false;
}

/* The value of a field of n bytes; the field is left for its checks, and `pass` goes behind it. */
static bool field(reader *r, size_t n, uint64_t *value)
{
    if (r->length - r->at < n)
        return refuse(r, 1);
    *value = 0;
    for (size_t i = n; i > 0; i--)
        *value = *value << 8 | r->sheet[r->at + i - 1];
    return true;
}

static bool pass(reader *r, size_t n)
{
    r->at += n;
    return true;
}

static bool exactly(reader *r, size_t n, uint64_t due, uint8_t fault)
{
    uint64_t x;
    if (!field(r, n, &x))
        return false;
    return x == due ? pass(r, n) : refuse(r, fault);
}

/* A count, a kind or a join. */
static bool between(reader *r, unsigned first, unsigned last, uint8_t *value)
{
    uint64_t x;
    if (!field(r, 1, &x))
        return false;
    if (x < first || x > last)
        return refuse(r, 4);
    *value = (uint8_t)x;
    return pass(r, 1);
}

/* A u or a v. A v may be 0, which is no upper end, where the version has that. */
static bool bound(reader *r, unsigned least, bool or_none, uint16_t *value)
{
    uint64_t x;
    if (!field(r, 2, &x))
        return false;
    if (x < least && !(or_none && x == 0))
        return refuse(r, 7);
    *value = (uint16_t)x;
    return pass(r, 2);
}

/* A trigger or a range's name: by document 02 "At a range name the order becomes 1, 6, 9, 8". At a trigger the rule has no name yet, so that 8 is not met. */
static bool name_field(reader *r, uint64_t wrong_way, uint8_t *name)
{
    uint64_t x;
    if (!field(r, 1, &x))
        return false;
    if (x >= HAND_NAMES)
        return refuse(r, 6);
    if (has(wrong_way, (unsigned)x))
        return refuse(r, 9);
    if (has(r->used, (unsigned)x))
        return refuse(r, 8);
    *name = (uint8_t)x;
    r->used |= (uint64_t)1 << x;
    return pass(r, 1);
}

/* The version says which joins there are: 0 and 1, and from version 2 on the shuffled ones; and from version 2 on a range may have no upper end. */
static bool read_version(reader *r)
{
    uint64_t x;
    if (!field(r, 2, &x))
        return false;
    if (x != 1 && x != 2)
        return refuse(r, 3);
    r->version = (uint16_t)x;
    r->last_join = x == 1 ? 1 : 3;
    r->endless = x > 1;
    return pass(r, 2);
}

static bool read_fragment(reader *r, bool of_q, hand_fragment *f)
{
    uint8_t join;
    if (!between(r, 0, r->last_join, &join) || !between(r, 1, HAND_RANGES, &f->count))
        return false;
    f->any = join & ANY;
    f->shuffled = join & MIXED;
    f->names = 0;
    for (unsigned i = 0; i < f->count; i++) {
        hand_range *range = &f->ranges[i];
        if (!name_field(r, of_q ? ~r->outputs : 0, &range->name) || !bound(r, 1, false, &range->u) || !bound(r, range->u, r->endless, &range->v))
            return false;
        f->names |= (uint64_t)1 << range->name;
    }
    return true;
}

static hand_fragment trigger_fragment(uint8_t name)
{
    return (hand_fragment){.names = (uint64_t)1 << name, .count = 1, .ranges = {{name, 1, 1}}};
}

/* A rule's eight bytes, after its kind and its count of fragments in P. */
static bool read_timed(reader *r, hand_rule *rule)
{
    uint8_t in_q;
    uint64_t limit;
    if (!between(r, 1, 8, &in_q) || !exactly(r, 1, 0, 5) || !field(r, 4, &limit))
        return false;
    rule->in_round = rule->in_p + in_q;
    rule->limit = (uint32_t)limit;
    return pass(r, 4);
}

static bool read_requirement(reader *r, hand_rule *rule)
{
    uint8_t trigger;
    if (!exactly(r, 1, 0, 5) || !name_field(r, r->outputs, &trigger) || !exactly(r, 4, 0, 5))
        return false;
    rule->in_round = rule->in_p + 1;
    rule->limit = 0;
    rule->fragments[rule->in_p] = trigger_fragment(trigger);
    return true;
}

/* Fragments of a rule in the sheet: a trigger's is not there. */
static inline unsigned in_sheet(const hand_rule *rule)
{
    return rule->kind == TIMED ? rule->in_round : rule->in_p;
}

static bool read_rule(reader *r, hand_rule *rule)
{
    r->used = 0;
    if (!between(r, 0, 2, &rule->kind) || !between(r, 1, 8, &rule->in_p))
        return false;
    bool timed = rule->kind == TIMED;
    if (!(timed ? read_timed(r, rule) : read_requirement(r, rule)))
        return false;
    unsigned count = in_sheet(rule);
    for (unsigned f = 0; f < count; f++)
        if (!read_fragment(r, f >= rule->in_p, &rule->fragments[f]))
            return false;
    return true;
}

static bool read_sheet(reader *r, hand_book *book)
{
    if (!exactly(r, 3, 0x424F4C, 2) || !read_version(r) || !field(r, 8, &r->outputs))
        return false;
    pass(r, 8);
    if (!between(r, 1, HAND_RULES, &book->count))
        return false;
    book->version = r->version;
    book->outputs = r->outputs;
    memset(book->holders, 0, sizeof book->holders);
    for (unsigned k = 0; k < book->count; k++) {
        if (!read_rule(r, &book->rules[k]))
            return false;
        for (uint64_t names = r->used; names != 0; names &= names - 1)
            book->holders[__builtin_ctzll(names)] |= (uint16_t)(1u << k);
    }
    return r->at == r->length ? true : refuse(r, 10);
}

/* ---- the recogniser of a range, for the ranges of one fragment */

/* "Can this range take one more" */
static inline bool has_room(unsigned count, unsigned v)
{
    return v == 0 || count < v;
}

/* The table's column "own". */
static inline uint8_t after_own(uint8_t state, unsigned count, unsigned v)
{
    switch (state) {
    case NOT_BEGUN:
    case WAITING: return COUNTING;
    case COUNTING: return has_room(count, v) ? COUNTING : ERROR;
    default: return ERROR;
    }
}

/* The table's column "sibling". */
static inline uint8_t after_sibling(uint8_t state, unsigned count, unsigned u, bool shuffled)
{
    switch (state) {
    case NOT_BEGUN:
    case WAITING: return WAITING;
    case COUNTING: return shuffled ? COUNTING : count >= u ? DONE : ERROR;
    case DONE: return DONE;
    default: return ERROR;
    }
}

/* The table's column "next": whether the range goes idle, and not to error. */
static inline bool closes(uint8_t state, unsigned count, unsigned u, bool any)
{
    switch (state) {
    case WAITING: return any;
    case COUNTING: return count >= u;
    case DONE: return true;
    default: return false;
    }
}

/* Whether an own event would be no error. */
static inline bool takes(uint8_t state, unsigned count, unsigned v)
{
    return after_own(state, count, v) == COUNTING;
}

/* An event on a name of the fragment; false at a range's error. */
static bool moves(const hand_fragment *f, hand_rule_state *st, unsigned name)
{
    for (unsigned i = 0; i < f->count; i++) {
        const hand_range *range = &f->ranges[i];
        uint8_t was = st->states[i];
        unsigned count = st->counts[i];
        if (range->name == name) {
            st->counts[i] = (uint16_t)(count + (count < UINT16_MAX));
            st->states[i] = after_own(was, count, range->v);
        } else {
            st->states[i] = after_sibling(was, count, range->u, f->shuffled);
        }
        if (st->states[i] == ERROR)
            return false;
    }
    return true;
}

/* The first event of a fragment. */
static void begin(const hand_fragment *f, hand_rule_state *st, unsigned name)
{
    memset(st->counts, 0, sizeof st->counts);
    for (unsigned i = 0; i < f->count; i++) {
        if (f->ranges[i].name == name) {
            st->states[i] = COUNTING;
            st->counts[i] = 1;
        } else {
            st->states[i] = WAITING;
        }
    }
}

/* The fragment may be followed. */
static bool complete(const hand_fragment *f, const hand_rule_state *st)
{
    for (unsigned i = 0; i < f->count; i++)
        if (!closes(st->states[i], st->counts[i], f->ranges[i].u, f->any))
            return false;
    return true;
}

/* The fragment can take one more event. */
static bool grows(const hand_fragment *f, const hand_rule_state *st)
{
    for (unsigned i = 0; i < f->count; i++)
        if (takes(st->states[i], st->counts[i], f->ranges[i].v))
            return true;
    return false;
}

/* ---- one rule */

/* DUE is open with a deadline that runs: the rule's next event would have to be of Q and in time. */
typedef enum standing { STANDS_WHOLE, STANDS_OPEN, STANDS_DUE, STANDS_BROKEN } standing;

static inline bool late(const hand_rule *rule, const hand_rule_state *st, uint32_t time)
{
    return rule->kind == TIMED && time > (uint64_t)st->end + rule->limit;
}

static standing standing_of(const hand_rule *rule, const hand_rule_state *st)
{
    const hand_fragment *f = &rule->fragments[st->fragment];
    unsigned next = st->fragment + 1u;
    if (next == rule->in_round && complete(f, st))
        return STANDS_WHOLE;
    if (rule->kind != TIMED || next < rule->in_p)
        return STANDS_OPEN;
    if (next > rule->in_p)
        return STANDS_DUE;
    return complete(f, st) && !grows(f, st) ? STANDS_DUE : STANDS_OPEN; /* P may be at its end, or a longer one may come */
}

/* An event on one of the rule's names. */
static standing step(const hand_rule *rule, hand_rule_state *st, unsigned name, uint32_t time)
{
    if (rule->kind == ONCE && st->fragment == rule->in_p)
        return STANDS_WHOLE; /* "Kind 0 is released by its first valid trigger." */
    const hand_fragment *here = &rule->fragments[st->fragment];
    if (has(here->names, name)) {
        if (st->fragment >= rule->in_p && late(rule, st, time))
            return STANDS_BROKEN;
        if (!moves(here, st, name))
            return STANDS_BROKEN;
    } else {
        unsigned next = st->fragment + 1u == rule->in_round ? 0 : st->fragment + 1u; /* "the first fragment follows the last" */
        const hand_fragment *there = &rule->fragments[next];
        if (!has(there->names, name) || !complete(here, st))
            return STANDS_BROKEN;
        if (next >= rule->in_p && late(rule, st, time))
            return STANDS_BROKEN;
        st->fragment = (uint8_t)next;
        begin(there, st, name);
    }
    if (st->fragment < rule->in_p)
        st->end = time;
    return standing_of(rule, st);
}

/* ---- observing */

static inline uint64_t answer(unsigned kind, unsigned refusal, uint16_t mask, uint32_t place)
{
    return kind | refusal << 8 | (uint64_t)mask << 16 | (uint64_t)place << 32;
}

static inline uint64_t refused(unsigned refusal)
{
    return answer(REFUSED, refusal, 0, 0);
}

uint64_t hand_verdict(const hand_monitor *m)
{
    return answer(m->verdict, 0, m->mask, m->verdict == BROKEN ? m->taken : 0);
}

uint32_t hand_taken(const hand_monitor *m)
{
    return m->taken;
}

/* Only the rules that have the name or a deadline that runs are looked at; the others stay as they are. */
static uint64_t observe(const hand_book *book, hand_monitor *m, uint16_t concerned, unsigned name, uint32_t time)
{
    if (time < m->latest)
        return refused(11);
    if (m->taken == UINT32_MAX)
        return refused(13);
    m->taken++;
    m->latest = time;
    unsigned touched = concerned | m->dues;
    unsigned broken = 0, open = m->mask & ~touched, dues = 0;
    for (unsigned todo = touched; todo != 0; todo &= todo - 1) {
        unsigned r = (unsigned)__builtin_ctz(todo), bit = 1u << r;
        const hand_rule *rule = &book->rules[r];
        hand_rule_state *st = &m->rules[r];
        standing s;
        if (concerned & bit)
            s = step(rule, st, name, time);
        else
            s = late(rule, st, time) ? STANDS_BROKEN : STANDS_DUE;
        broken |= s == STANDS_BROKEN ? bit : 0;
        open |= s == STANDS_OPEN || s == STANDS_DUE ? bit : 0;
        dues |= s == STANDS_DUE ? bit : 0;
    }
    m->dues = (uint16_t)dues;
    m->mask = (uint16_t)(broken != 0 ? broken : open);
    m->verdict = broken != 0 ? BROKEN : open != 0 ? OPEN : WHOLE;
    return hand_verdict(m);
}

uint64_t hand_event(const hand_book *book, hand_monitor *m, uint32_t name, uint32_t time)
{
    if (m->verdict == BROKEN)
        return hand_verdict(m);
    if (name >= HAND_NAMES)
        return refused(12);
    return observe(book, m, book->holders[name], name, time);
}

uint64_t hand_clock(const hand_book *book, hand_monitor *m, uint32_t time)
{
    if (m->verdict == BROKEN)
        return hand_verdict(m);
    return observe(book, m, 0, 0, time);
}

void hand_start(const hand_book *book, hand_monitor *m)
{
    memset(m, 0, sizeof *m);
    for (unsigned r = 0; r < book->count; r++)
        memset(m->rules[r].states, NOT_BEGUN, book->rules[r].fragments[0].count);
}

uint64_t hand_open(hand_book *book, hand_monitor *m, const uint8_t *sheet, size_t length)
{
    hand_book made;
    reader r = {.sheet = sheet, .length = length};
    if (!read_sheet(&r, &made))
        return answer(REFUSED, r.fault, 0, (uint32_t)r.at);
    *book = made;
    hand_start(book, m);
    return answer(WHOLE, 0, 0, 0);
}

/* ---- running a log */

static void put(uint8_t *out, uint32_t x, size_t n)
{
    for (size_t i = 0; i < n; i++)
        out[i] = (uint8_t)(x >> 8 * i);
}

static void put_outcome(uint8_t *out, uint64_t said, uint16_t mask, uint32_t taken, uint32_t place)
{
    put(out, (uint8_t)said, 1);
    put(out + 1, (uint8_t)(said >> 8), 1);
    put(out + 2, mask, 2);
    put(out + 4, taken, 4);
    put(out + 8, place, 4);
}

static inline uint32_t time_at(const uint8_t *p)
{
    return p[0] | (uint32_t)p[1] << 8 | (uint32_t)p[2] << 16 | (uint32_t)p[3] << 24;
}

/* "Only a refusal or a break stops it before the budget or the log is used up." */
static void play(const hand_book *book, const uint8_t *log, uint32_t records, uint8_t *out)
{
    hand_monitor m;
    hand_start(book, &m);
    for (uint32_t i = 0; i < records; i++) {
        const uint8_t *record = log + 5 * (size_t)i;
        uint32_t time = time_at(record + 1);
        uint64_t said = record[0] == 0xFF ? hand_clock(book, &m, time) : hand_event(book, &m, record[0], time);
        if ((uint8_t)said == REFUSED) {
            put_outcome(out, said, m.mask, m.taken, 5 * i);
            return;
        }
        if ((uint8_t)said == BROKEN)
            break;
    }
    uint64_t verdict = hand_verdict(&m);
    put_outcome(out, verdict, m.mask, m.taken, (uint32_t)(verdict >> 32));
}

uint32_t hand_run(const uint8_t *sheet, size_t sheet_length, const uint8_t *log, size_t log_length, uint32_t budget, uint8_t *out, size_t out_length)
{
    if (out_length < 12)
        return 15;
    hand_book book;
    reader r = {.sheet = sheet, .length = sheet_length};
    if (!read_sheet(&r, &book)) {
        put_outcome(out, answer(REFUSED, r.fault, 0, 0), 0, 0, (uint32_t)r.at);
        return 0;
    }
    if (log_length % 5 != 0 || log_length > UINT32_MAX) {
        put_outcome(out, refused(14), 0, 0, 0);
        return 0;
    }
    uint32_t records = (uint32_t)(log_length / 5);
    play(&book, log, budget < records ? budget : records, out);
    return 0;
}

/* ---- writing a sheet back */

/* A number's bytes, and where the next ones go. */
static inline uint8_t *append(uint8_t *out, uint64_t x, size_t n)
{
    for (size_t i = 0; i < n; i++)
        out[i] = (uint8_t)(x >> 8 * i);
    return out + n;
}

static size_t size_of(const hand_book *book)
{
    size_t size = 14;
    for (unsigned k = 0; k < book->count; k++) {
        const hand_rule *rule = &book->rules[k];
        size += 8;
        for (unsigned f = 0; f < in_sheet(rule); f++)
            size += 2 + 5 * (size_t)rule->fragments[f].count;
    }
    return size;
}

static uint8_t *append_fragment(uint8_t *out, const hand_fragment *f)
{
    out = append(out, (f->any ? ANY : 0) | (f->shuffled ? MIXED : 0), 1);
    out = append(out, f->count, 1);
    for (unsigned i = 0; i < f->count; i++) {
        out = append(out, f->ranges[i].name, 1);
        out = append(out, f->ranges[i].u, 2);
        out = append(out, f->ranges[i].v, 2);
    }
    return out;
}

static uint8_t *append_rule(uint8_t *out, const hand_rule *rule)
{
    bool timed = rule->kind == TIMED;
    out = append(out, rule->kind, 1);
    out = append(out, rule->in_p, 1);
    out = append(out, timed ? (uint8_t)(rule->in_round - rule->in_p) : 0, 1);
    out = append(out, timed ? 0 : rule->fragments[rule->in_p].ranges[0].name, 1);
    out = append(out, rule->limit, 4);
    for (unsigned f = 0; f < in_sheet(rule); f++)
        out = append_fragment(out, &rule->fragments[f]);
    return out;
}

int64_t hand_write(const hand_book *book, uint8_t *buffer, size_t length)
{
    size_t size = size_of(book);
    if (length < size)
        return -16;
    uint8_t *out = append(buffer, 0x424F4C, 3);
    out = append(out, book->version, 2);
    out = append(out, book->outputs, 8);
    out = append(out, book->count, 1);
    for (unsigned k = 0; k < book->count; k++)
        out = append_rule(out, &book->rules[k]);
    return (int64_t)size;
}

/* ---- playing a round, as docs/PLAYING.md has it */

/* How often each name of the fragment has come, and the range that came last, -1 at first. */
typedef struct filling {
    size_t counts[HAND_RANGES];
    int last;
} filling;

static inline bool may_come(const hand_fragment *f, const filling *s, int i)
{
    const hand_range *range = &f->ranges[i];
    if (f->shuffled || s->last == i)
        return range->v == 0 || s->counts[i] < range->v;
    return s->counts[i] == 0 && (s->last < 0 || s->counts[s->last] >= f->ranges[s->last].u);
}

/* The range that is needed, or -1 if the fragment may be left: a range that has begun comes first, and of the others none where some will do. */
static inline int needed(const hand_fragment *f, const filling *s)
{
    int first = -1;
    for (int i = 0; i < f->count; i++) {
        if (s->counts[i] >= f->ranges[i].u)
            continue;
        if (s->counts[i] != 0)
            return i;
        first = first < 0 ? i : first;
    }
    return f->any && s->last >= 0 ? -1 : first;
}

/* A pass over the round: the number of its records, or -18. They are written if there is an output. */
static int64_t pass_round(const hand_rule *rule, uint32_t time, const uint8_t *choice, size_t choice_length, uint8_t *out, size_t room)
{
    size_t records = 0, at = 0;
    for (unsigned k = 0; k < rule->in_round; k++) {
        const hand_fragment *f = &rule->fragments[k];
        filling s = {.last = -1};
        for (;; records++) {
            unsigned byte = at < choice_length ? choice[at] : 0;
            int i = (int)(byte % (f->count + 1u)) - 1;
            at++;
            if (i < 0 || !may_come(f, &s, i))
                i = needed(f, &s);
            if (i < 0)
                break;
            if (records == room)
                return -18;
            s.counts[i]++;
            s.last = i;
            if (out != NULL) {
                out = append(out, f->ranges[i].name, 1);
                out = append(out, time, 4);
            }
        }
    }
    return (int64_t)records;
}

int64_t hand_play(const hand_book *book, uint32_t rule, uint32_t time, const uint8_t *choice, size_t choice_length, uint8_t *out, size_t out_length)
{
    if (rule >= book->count)
        return -17;
    int64_t records = pass_round(&book->rules[rule], time, choice, choice_length, NULL, out_length / 5);
    if (records >= 0)
        pass_round(&book->rules[rule], time, choice, choice_length, out, out_length / 5);
    return records;
}
