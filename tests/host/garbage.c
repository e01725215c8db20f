/* Books and monitors that the calls did not make. "For a table or monitor that these calls didn't make, or a monitor opened for another book, the verdict is free; the call
 * still returns and touches nothing but the monitor." The book can't be written meanwhile, and both end or start at a page's edge. Such books are written back too,
 * and their rules are played. */
#include "host.h"

#define ROUNDS 6000
#define OBSERVATIONS 64

/* how the bytes of a book or a monitor come about */
enum source { REAL, OTHER, MUTATED, ONE_BIT, ONE_WORD, RANDOM, SMALL, EVERY_BIT, SOURCES };

static const struct reference_case *some_sheet(void)
{
    const struct reference_case *c;
    do
        c = &cases[below((uint32_t)case_count)];
    while (!opens(c));
    return c;
}

/* Single bits, bytes and small values, a few of them. */
static void mutate(uint8_t *bytes, size_t length)
{
    for (uint32_t n = 1 + below(8); n > 0; n--) {
        uint8_t *b = &bytes[below((uint32_t)length)];
        switch (below(4)) {
        case 0:
            *b ^= (uint8_t)(1u << below(8));
            break;
        case 1:
            *b = (uint8_t)number();
            break;
        case 2:
            *b = 0xFF;
            break;
        default:
            *b = (uint8_t)(*b + below(3));
        }
    }
}

static void make(enum source source, uint8_t *bytes, size_t length, const void *other)
{
    if (source == OTHER)
        memcpy(bytes, other, length);
    else if (source == ONE_BIT)
        bytes[below((uint32_t)length)] ^= (uint8_t)(1u << below(8));
    else if (source == ONE_WORD)
        scramble(bytes + sizeof(uint64_t) * below((uint32_t)(length / sizeof(uint64_t))), sizeof(uint64_t));
    else if (source == MUTATED)
        mutate(bytes, length);
    else if (source == RANDOM)
        scramble(bytes, length);
    else if (source == EVERY_BIT)
        memset(bytes, below(2) ? 0xFF : 0, length);
    else if (source == SMALL)
        for (size_t i = 0; i < length; i++)
            bytes[i] = (uint8_t)(below(4) ? below(10) : 0);
}

static struct observation some_observation(uint32_t *time)
{
    struct observation o = {below(4) == 0, below(8) ? below(64) : (uint32_t)number(), *time, {0, 0, 0, 0}};
    if (below(3) == 0)
        *time += below(20);
    if (below(16) == 0)
        *time = below(2) ? ALL : (uint32_t)number();
    o.time = *time;
    return o;
}

/* An answer is one of the four, and has a refusal's number if it is a refusal, and else none. */
static long wrong_answer(guard_answer a)
{
    return a.answer > GUARD_REFUSED || (a.answer == GUARD_REFUSED) != (a.refusal != 0) || a.refusal > GUARD_OUTPUT;
}

struct desk {
    struct pages books, monitors;
    guard_book *book;
    guard_monitor *monitor;
};

/* What stands around the monitor between the forbidden pages. */
static long wrong_around(const struct desk *d)
{
    const uint8_t *first = (const uint8_t *)d->monitor, *last = first + sizeof *d->monitor;
    for (const uint8_t *b = d->monitors.start; b < d->monitors.end; b++)
        if ((b < first || b >= last) && *b != 0x5A)
            return 1;
    return 0;
}

/* A book and a monitor of these sources. The monitor has seen a part of its sheet's list, so that its rules are under way. */
static void prepare(const struct desk *d, enum source of_book, enum source of_monitor)
{
    static guard_book other_book;
    guard_monitor other;
    const struct reference_case *c = some_sheet(), *another = some_sheet();
    writable(d->books);
    memset(d->monitors.start, 0x5A, (size_t)(d->monitors.end - d->monitors.start));
    guard_open(&other_book, &other, another->sheet, another->sheet_length);
    guard_open(d->book, d->monitor, c->sheet, c->sheet_length);
    for (size_t i = 0; i < c->count / 2; i++)
        observe(d->book, d->monitor, observation_of(c, i));
    for (size_t i = 0; i < another->count / 2; i++)
        observe(&other_book, &other, observation_of(another, i));
    make(of_book, (uint8_t *)d->book, sizeof *d->book, &other_book);
    make(of_monitor, (uint8_t *)d->monitor, sizeof *d->monitor, &other);
    read_only(d->books);
}

struct tally {
    long observations, looks, wrong_answers, wrong_touches, wrong_looks, answers[4];
};

/* The verdict, which is whole, open or broken, and the count are read, and the monitor stays; then a fresh start: whole and nothing taken, whatever stood there. */
static void look(const struct desk *d, struct tally *n)
{
    guard_monitor old = *d->monitor;
    guard_answer before = guard_verdict(d->monitor);
    (void)guard_taken(d->monitor);
    n->wrong_touches += memcmp(&old, d->monitor, sizeof old) != 0;
    guard_start(d->monitor);
    n->looks++;
    if (before.answer > GUARD_BROKEN || before.refusal != 0 || !same_answer(guard_verdict(d->monitor), answer(GUARD_WHOLE, 0, 0, 0)) || guard_taken(d->monitor) != 0)
        n->wrong_looks += differs("a verdict of garbage", n->observations);
}

static void play(const struct desk *d, struct tally *n)
{
    static guard_book old;
    uint32_t time = 0;
    old = *d->book;
    for (int k = 0; k < OBSERVATIONS; k++, n->observations++) {
        guard_answer a = observe(d->book, d->monitor, some_observation(&time));
        if (wrong_answer(a))
            n->wrong_answers += differs("an answer to garbage", n->observations);
        else
            n->answers[a.answer]++;
        if (k == OBSERVATIONS / 2)
            look(d, n);
    }
    if (memcmp(&old, d->book, sizeof old) != 0 || wrong_around(d))
        n->wrong_touches += differs("garbage, a byte outside the monitor", n->observations);
}

/* ---- writing: "For a book that no sheet gives, the result of this and of later calls on it is free." The call returns, and it writes so many bytes of its buffer as it answers. */

#define ROOM 12288
#define MOST_BYTES 10894 /* no words say more: 14, and 16 rules of 8 bytes with 16 fragments of 2 with 8 ranges of 5 */

static long wrong_write(const guard_book *book, struct pages buffers, const uint8_t *before, int at_end, size_t length, long *refused)
{
    uint8_t *all = buffers.start, *buffer = edge(buffers, at_end, length);
    int64_t said = guard_write(book, buffer, length);
    size_t from = (size_t)(buffer - all), after = from + (said < 0 ? 0 : (size_t)said);
    long wrong = said != -16 && (said < 0 || said > MOST_BYTES || (size_t)said > length);
    *refused += said == -16;
    wrong = wrong || memcmp(all, before, from) != 0 || memcmp(all + after, before + after, ROOM - after) != 0;
    memcpy(all, before, ROOM);
    return wrong;
}

static void check_garbage_written(void)
{
    static uint8_t before[ROOM];
    struct desk d = {pages_for(sizeof(guard_book)), pages_for(sizeof(guard_monitor)), NULL, NULL};
    struct pages buffers = pages_for(ROOM);
    long count = 0, refused = 0, wrong = 0;
    scramble(before, ROOM);
    memcpy(buffers.start, before, ROOM);
    for (int round = 0; round < ROUNDS; round++) {
        int at_end = round % 2;
        const size_t lengths[] = {0, below(14), 14 + below(200), below(ROOM), GUARD_SHEET_BYTES, MOST_BYTES - 1, MOST_BYTES, ROOM};
        d.book = (void *)edge(d.books, at_end, sizeof *d.book);
        d.monitor = (void *)edge(d.monitors, at_end, sizeof *d.monitor);
        prepare(&d, (enum source)(round / 2 % SOURCES), REAL);
        for (size_t i = 0; i < sizeof lengths / sizeof *lengths; i++, count++)
            if (wrong_write(d.book, buffers, before, at_end, lengths[i], &refused))
                wrong += differs("garbage written", round);
    }
    tell("garbage books written, inside the buffer and within the number answered", count, wrong);
    tell("garbage books, kinds of answers to a write, each a thousand times", (refused >= 1000) + (count - refused >= 1000), (refused < 1000) + (count - refused < 1000));
}

/* ---- playing: the call returns, and it writes so many records of its output as it answers, the same at each call. */

#define PLAYED 1600
#define PLAYED_ROOM 20480

struct played {
    struct pages outs, choices;
    const uint8_t *before;
    long count, kinds[3]; /* records, 17 and 18 */
};

static long wrong_played(const guard_book *book, struct played *p, int at_end, uint32_t rule, size_t choice_length, size_t length)
{
    static uint8_t first[PLAYED_ROOM];
    uint8_t *all = p->outs.start, *out = edge(p->outs, at_end, length), *choice = edge(p->choices, at_end, choice_length);
    uint32_t time = (uint32_t)number();
    memcpy(all, p->before, PLAYED_ROOM);
    int64_t said = guard_play(book, rule, time, choice, choice_length, out, length);
    size_t from = (size_t)(out - all), after = from + (said < 0 ? 0 : GUARD_RECORD_BYTES * (size_t)said);
    if ((said < 0 && said != -GUARD_RULE && said != -GUARD_ROUND) || (said >= 0 && (size_t)said > length / GUARD_RECORD_BYTES))
        return 1;
    p->count++, p->kinds[said < 0 ? -said - GUARD_BUFFER : 0]++;
    long wrong = memcmp(all, p->before, from) != 0 || memcmp(all + after, p->before + after, PLAYED_ROOM - after) != 0;
    memcpy(first, all, PLAYED_ROOM);
    memcpy(all, p->before, PLAYED_ROOM);
    return wrong || guard_play(book, rule, time, choice, choice_length, out, length) != said || memcmp(all, first, PLAYED_ROOM) != 0;
}

static void check_garbage_played(void)
{
    static uint8_t before[PLAYED_ROOM];
    struct desk d = {pages_for(sizeof(guard_book)), pages_for(sizeof(guard_monitor)), NULL, NULL};
    struct played p = {pages_for(PLAYED_ROOM), pages_for(256), before, 0, {0, 0, 0}};
    long kinds = 0, wrong = 0;
    scramble(before, PLAYED_ROOM);
    for (int round = 0; round < PLAYED; round++) {
        int at_end = round % 2;
        const size_t lengths[] = {below(13), below(200), PLAYED_ROOM - below(8)};
        const uint32_t rules[] = {0, below(16), below(4) ? below(20) : (uint32_t)number()};
        d.book = (void *)edge(d.books, at_end, sizeof *d.book);
        d.monitor = (void *)edge(d.monitors, at_end, sizeof *d.monitor);
        prepare(&d, (enum source)(round / 2 % SOURCES), REAL);
        writable(p.choices);
        scramble(p.choices.start, (size_t)(p.choices.end - p.choices.start));
        read_only(p.choices);
        for (size_t i = 0; i < sizeof lengths / sizeof *lengths; i++)
            if (wrong_played(d.book, &p, at_end, rules[i], below(3) ? below(256) : 0, lengths[(i + (size_t)round / 2) % 3]))
                wrong += differs("garbage played", round);
    }
    tell("garbage books played, inside the output and within the number answered, twice the same", p.count, wrong);
    for (int k = 0; k < 3; k++)
        kinds += p.kinds[k] >= 100;
    tell("garbage books, kinds of answers to a play, each a hundred times", kinds, 3 - kinds);
}

void check_garbage(void)
{
    struct tally n;
    memset(&n, 0, sizeof n);
    struct desk d = {pages_for(sizeof(guard_book)), pages_for(sizeof(guard_monitor)), NULL, NULL};
    for (int round = 0; round < ROUNDS; round++) {
        int at_end = round % 2;
        d.book = (void *)edge(d.books, at_end, sizeof *d.book);
        d.monitor = (void *)edge(d.monitors, at_end, sizeof *d.monitor);
        prepare(&d, (enum source)(round / 2 % SOURCES), (enum source)(round / 2 / SOURCES % SOURCES));
        play(&d, &n);
    }
    tell("garbage books and monitors, observations answered", n.observations, n.wrong_answers);
    tell("garbage books and monitors, nothing touched but the monitor", n.observations, n.wrong_touches);
    tell("garbage books and monitors, verdicts and fresh starts", n.looks, n.wrong_looks);
    long kinds = 0;
    for (int a = 0; a < 4; a++)
        kinds += n.answers[a] >= 1000;
    tell("kinds of answers to garbage, each a thousand times", kinds, 4 - kinds);
    check_garbage_written();
    check_garbage_played();
}
