/* Rounds played: "Given a book, a rule number, a time, lent choice bytes and an output, write one round of that rule as log records, all at that time. Every choice gives a round that matches,
 * missing choice bytes counting as 0". "The answer is the number of records; later bytes don't change." "Turned away: 17, no such rule; 18, the chosen round is longer than the output; 17 is
 * looked at first, and neither writes anything." Which round is due is what playing.py has written, from docs/PLAYING.md. Book, choice and output end or start at a page's edge, and the first two
 * can't be written meanwhile. */
#include "host.h"

#define RECORD GUARD_RECORD_BYTES
#define SHORT 4096        /* most outputs have no more bytes, and every byte between their forbidden pages is compared */
#define LONG 4194304      /* and no output has more than these */
#define CHOICE 131072     /* no choice has more bytes */
#define AT_LEAST 100      /* of the rounds have to be played, and as many turned away by each number */

/* ---- the rounds due */

struct play {
    uint32_t rule, time;
    const uint8_t *choice, *records;
    size_t choice_length, out_length, looked; /* looked: how many bytes are looked at until the round is over, the missing ones too */
    int64_t due;
};

static struct play take_play(void)
{
    struct play p;
    p.rule = take_four(), p.time = take_four();
    p.choice_length = take_four(), p.choice = take(p.choice_length);
    p.out_length = take_four(), p.looked = take_four();
    uint32_t answer = take_four();
    p.due = answer >= 4294967278u ? (int64_t)answer - 4294967296 : (int64_t)answer;
    p.records = take(p.due > 0 ? RECORD * (size_t)p.due : 0);
    if (p.choice_length > CHOICE || p.out_length > LONG) {
        fprintf(stderr, "a round to be played needs more room\n");
        exit(2);
    }
    return p;
}

struct desk {
    struct pages books, choices, short_outs, long_outs;
    guard_book *book;
    uint8_t *unread;          /* behind as many bytes as a choice may have, 4,294,967,296 that can't be touched */
    uint8_t *before, *other;  /* what stands in the outputs' pages at the first call and at the second */
};

struct tally {
    long played, no_rule, longer, wrong_played, wrong_no_rule, wrong_longer;
    long unread, wrong_unread, alone, wrong_alone, beside, stopped, wrong_beside;
    long any, too_long, wrong_any, sheets, wrong_sheets;
};

/* One call: its answer, and every byte between the forbidden pages. */
static long wrong_call(const struct desk *d, int at_end, const struct play *p, const uint8_t *choice, size_t choice_length, uint32_t time, const uint8_t *before)
{
    struct pages outs = p->out_length <= SHORT ? d->short_outs : d->long_outs;
    uint8_t *all = outs.start, *out = edge(outs, at_end, p->out_length);
    size_t room = (size_t)(outs.end - all), from = (size_t)(out - all), count = p->due > 0 ? (size_t)p->due : 0, after = from + RECORD * count;
    memcpy(all, before, room);
    long wrong = guard_play(d->book, p->rule, time, choice, choice_length, out, p->out_length) != p->due || memcmp(all, before, from) != 0 ||
                 memcmp(all + after, before + after, room - after) != 0;
    for (size_t i = 0; i < count; i++)
        wrong |= out[RECORD * i] != p->records[RECORD * i] || four_bytes(out + RECORD * i + 1) != time;
    return wrong || (time == p->time && memcmp(out, p->records, RECORD * count) != 0);
}

/* The round is picked "by the choice bytes, and by nothing else: not by the time, not by the output": a second call, at another time and with another output, gives it again. */
static long wrong_play(const struct desk *d, int at_end, const struct play *p)
{
    const uint8_t *choice = lend(d->choices, at_end, p->choice, p->choice_length);
    return wrong_call(d, at_end, p, choice, p->choice_length, p->time, d->before) || wrong_call(d, at_end, p, choice, p->choice_length, ~p->time, d->other);
}

/* "After the last fragment is left, the round is over; later bytes are not looked at", and where there is no rule none is: of a choice of 4,294,967,296 bytes all others can't be read. */
static void check_unread(const struct desk *d, long number, const struct play *p, struct tally *n)
{
    if (p->looked > p->choice_length)
        return;
    uint8_t *choice = d->unread - p->looked;
    memcpy(choice, p->choice, p->looked);
    n->unread++;
    if (wrong_call(d, 1, p, choice, (size_t)ALL + 1, p->time, d->before))
        n->wrong_unread += differs("a round's bytes looked at", number);
}

/* ---- a monitor that is shown a round */

static size_t rule_length(const uint8_t *rule)
{
    size_t length = 8;
    for (int fragments = rule[1] + rule[2]; fragments > 0; fragments--)
        length += 2 + 5 * (size_t)rule[length + 1];
    return length;
}

/* The sheet with one of its rules alone. */
static size_t rule_alone(const uint8_t *sheet, uint32_t number, uint8_t *alone)
{
    const uint8_t *rule = sheet + 14;
    for (; number > 0; number--)
        rule += rule_length(rule);
    memcpy(alone, sheet, 13);
    alone[13] = 1;
    memcpy(alone + 14, rule, rule_length(rule));
    return 14 + rule_length(rule);
}

/* With the rule alone the monitor is whole at the last record and open before it; a Q that can grow is whole before too. */
static long wrong_alone(const uint8_t *sheet, uint32_t number, const uint8_t *records, size_t count)
{
    static guard_book book;
    static uint8_t alone[GUARD_SHEET_BYTES];
    guard_monitor monitor;
    size_t length = rule_alone(sheet, number, alone);
    long wrong = guard_open(&book, &monitor, alone, length).answer != GUARD_WHOLE;
    int timed = alone[14] == 2;
    for (size_t i = 0; i < count; i++) {
        guard_answer a = guard_event(&book, &monitor, records[RECORD * i], four_bytes(records + RECORD * i + 1));
        wrong |= a.answer != GUARD_WHOLE && (i + 1 == count || a.answer != GUARD_OPEN);
        wrong |= a.answer == GUARD_WHOLE && i + 1 < count && !timed;
    }
    return wrong || guard_taken(&monitor) != count;
}

/* In the whole book another rule may break, and the book stops. The played one is not among those that break, nor among those that are open at the end. */
static long wrong_beside(const guard_book *book, uint32_t number, const uint8_t *records, size_t count, long *stopped)
{
    guard_monitor monitor;
    guard_answer a = answer(GUARD_WHOLE, 0, 0, 0);
    guard_start(&monitor);
    for (size_t i = 0; i < count && a.answer != GUARD_BROKEN && a.answer != GUARD_REFUSED; i++)
        a = guard_event(book, &monitor, records[RECORD * i], four_bytes(records + RECORD * i + 1));
    *stopped += a.answer == GUARD_BROKEN;
    return count == 0 || a.answer == GUARD_REFUSED || (a.mask >> number & 1);
}

static void check_watched(const struct desk *d, long sheet_number, const uint8_t *sheet, uint32_t rule, const uint8_t *records, size_t count, struct tally *n)
{
    n->alone++, n->beside++;
    if (wrong_alone(sheet, rule, records, count))
        n->wrong_alone += differs("a round played, watched by its rule alone", sheet_number);
    if (wrong_beside(d->book, rule, records, count, &n->stopped))
        n->wrong_beside += differs("a round played, watched by its book", sheet_number);
}

/* ---- any bytes, on every rule */

#define ANY_ROOM 16384
#define ANY_BYTES 48

/* A call with an output of so many bytes in the middle of ANY_ROOM: whether the answer is this one, these are the output's first bytes, and all others are as they were. */
static long wrong_any(const guard_book *book, uint32_t rule, uint32_t time, const uint8_t *choice, size_t choice_length, size_t length, int64_t due, const uint8_t *records, const uint8_t *before)
{
    static uint8_t all[ANY_ROOM];
    size_t from = (ANY_ROOM - length) / 2, after = from + (due > 0 ? RECORD * (size_t)due : 0);
    memcpy(all, before, ANY_ROOM);
    return guard_play(book, rule, time, choice, choice_length, all + from, length) != due || memcmp(all, before, from) != 0 || memcmp(all + from, records, after - from) != 0 ||
           memcmp(all + after, before + after, ANY_ROOM - after) != 0;
}

/* Random bytes, and the same with zeros behind them; an output of just the round's length, and one that is a byte short. */
static void check_any(const struct desk *d, long sheet_number, const uint8_t *sheet, uint32_t rule, struct tally *n)
{
    static uint8_t records[ANY_ROOM];
    uint8_t choice[ANY_BYTES + 8] = {0};
    size_t choice_length = below(ANY_BYTES + 1);
    uint32_t time = below(4) ? (uint32_t)number() : below(2) ? 0 : ALL;
    scramble(choice, choice_length);
    memset(records, 0xA5, sizeof records);
    int64_t said = guard_play(d->book, rule, time, choice, choice_length, records, sizeof records);
    n->any++;
    if (said == -GUARD_ROUND) {
        n->too_long++;
        for (size_t i = 0; i < sizeof records; i++)
            n->wrong_any += records[i] != 0xA5;
        return;
    }
    size_t count = said > 0 ? (size_t)said : 0, length = RECORD * count;
    long wrong = count == 0 || length > sizeof records;
    if (!wrong) {
        wrong |= wrong_any(d->book, rule, time, choice, choice_length, length, said, records, d->before);
        wrong |= wrong_any(d->book, rule, time, choice, choice_length + 8, length, said, records, d->other);
        wrong |= wrong_any(d->book, rule, time, choice, choice_length, length - 1, -GUARD_ROUND, records, d->before);
        check_watched(d, sheet_number, sheet, rule, records, count, n);
    }
    if (wrong)
        n->wrong_any += differs("any bytes played", sheet_number);
}

/* ---- by hand */

/* The library's own call answers minus 17 and minus 18 in 64 bits, and the header's -17 and -18; a choice of no bytes and an output of none may stand nowhere. R's shortest round is 0 1 2. */
static void check_words(void)
{
    static guard_book book;
    guard_monitor monitor;
    uint8_t out[17];
    guard_open(&book, &monitor, sheet_r, R_BYTES);
    long wrong = guard4_play(book.words, 1, 0, NULL, 0, out, 15) != 18446744073709551599u;
    wrong += guard4_play(book.words, 0, 0, NULL, 0, out, 14) != 18446744073709551598u;
    wrong += guard_play(&book, 1, 0, NULL, 0, NULL, 0) != -17;
    wrong += guard_play(&book, 0, 0, NULL, 0, NULL, 0) != -18;
    memset(out, 0xA5, sizeof out);
    wrong += guard4_play(book.words, 0, 0x01020304, NULL, 0, out, sizeof out) != 3;
    wrong += memcmp(out, (const uint8_t[17]){0, 4, 3, 2, 1, 1, 4, 3, 2, 1, 2, 4, 3, 2, 1, 0xA5, 0xA5}, 17) != 0;
    wrong += guard_play(&book, 0, 0, (const uint8_t[1]){2}, 1, out, 15) != 3 || out[0] != 1 || out[5] != 0 || out[10] != 2;
    tell("the player's numbers, a choice of no bytes and an output of none", 7, wrong);
}

/* Outputs of more than 4,294,967,295 bytes, and of more than as many records: what is written is the round, and the rest can't be touched. */
static void check_large_outputs(void)
{
    static const size_t lengths[] = {2147483648u, 4294967291u, 4294967295u, 4294967296u, 4294967300u, 4294967310u, 21474836475u, 21474836480u, 21474836484u, 21474836490u};
    static guard_book book;
    guard_monitor monitor;
    const size_t most = 21474836490u, page = 4096;
    uint8_t *out = forbidden_after(page, most) - 15;
    long count = 0, wrong = 0;
    guard_open(&book, &monitor, sheet_r, R_BYTES);
    for (size_t i = 0; i < sizeof lengths / sizeof *lengths; i++, count += 2) {
        memset(out, 0xA5, 15);
        wrong += guard_play(&book, 0, 0, NULL, 0, out, lengths[i]) != 3 || memcmp(out, (const uint8_t[15]){0, 0, 0, 0, 0, 1, 0, 0, 0, 0, 2}, 15) != 0;
        wrong += guard_play(&book, 1, 0, NULL, 0, out + 15, lengths[i] - 15) != -17;
    }
    tell("outputs of up to 21,474,836,490 bytes", count, wrong);
}

/* ---- all of them */

static void check_play(struct desk *d, int at_end, long number, const uint8_t *sheet, const struct play *p, struct tally *n)
{
    long wrong = wrong_play(d, at_end, p);
    if (wrong)
        differs("a round played", number);
    if (p->due == -GUARD_RULE)
        n->no_rule++, n->wrong_no_rule += wrong;
    else if (p->due == -GUARD_ROUND)
        n->longer++, n->wrong_longer += wrong;
    else
        n->played++, n->wrong_played += wrong;
    if (!at_end || wrong)
        return;
    check_unread(d, number, p, n);
    if (p->due > 0)
        check_watched(d, number, sheet, p->rule, p->records, (size_t)p->due, n);
}

static void check_sheet(struct desk *d, long number, struct tally *n)
{
    size_t length = take_two();
    const uint8_t *sheet = take(length);
    guard_monitor monitor;
    size_t count = take_two();
    guard_book *books[2] = {(void *)edge(d->books, 0, sizeof(guard_book)), (void *)edge(d->books, 1, sizeof(guard_book))};
    struct play *plays = calloc(count, sizeof *plays);
    for (size_t i = 0; i < count; i++)
        plays[i] = take_play();
    for (int at_end = 0; at_end < 2; at_end++) {
        d->book = books[at_end];
        writable(d->books);
        n->sheets++;
        if (guard_open(d->book, &monitor, sheet, length).answer != GUARD_WHOLE)
            n->wrong_sheets += differs("a sheet to be played is refused", number);
        read_only(d->books);
        for (size_t i = 0; i < count; i++)
            check_play(d, at_end, number, sheet, &plays[i], n);
    }
    for (uint32_t rule = 0; rule < sheet[13]; rule++)
        check_any(d, number, sheet, rule, n);
    free(plays);
}

void check_playing(const char *path)
{
    static struct desk d;
    struct tally n;
    memset(&n, 0, sizeof n);
    d.books = pages_for(sizeof(guard_book)), d.choices = pages_for(CHOICE), d.short_outs = pages_for(SHORT), d.long_outs = pages_for(LONG);
    d.unread = forbidden_after(CHOICE, (size_t)ALL + 1);
    d.before = malloc(LONG), d.other = malloc(LONG);
    scramble(d.before, LONG);
    for (size_t i = 0; i < LONG; i++)
        d.other[i] = (uint8_t)~d.before[i];
    check_words();
    check_large_outputs();
    begin_file(path);
    uint32_t sheets = take_four();
    for (uint32_t i = 0; i < sheets; i++)
        check_sheet(&d, i, &n);
    tell("sheets whose rules are played, at either edge of a page", n.sheets, n.wrong_sheets + !file_ended());
    tell("rounds played, each record and the rest of the output as it was", n.played, n.wrong_played + (n.played < AT_LEAST));
    tell("numbers that no rule has, 17 and the output as it was", n.no_rule, n.wrong_no_rule + (n.no_rule < AT_LEAST));
    tell("rounds longer than the output, 18 and the output as it was", n.longer, n.wrong_longer + (n.longer < AT_LEAST));
    tell("rounds whose later bytes can't be read", n.unread, n.wrong_unread);
    tell("any bytes played on each rule, with zeros behind them, in just enough room and in a byte less", n.any, n.wrong_any + (n.any - n.too_long < AT_LEAST));
    tell("rounds played, whole at the end for a monitor of the rule alone", n.alone, n.wrong_alone);
    tell("rounds played, their rule neither broken nor open for a monitor of the book", n.beside, n.wrong_beside + (n.beside - n.stopped < AT_LEAST));
    free(d.before), free(d.other);
}
