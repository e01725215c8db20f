/* Sessions: the count's end, what a refusal leaves, names past 63, a stopped book, the most that a range can take, fresh starts, and two sessions under one book. What is due is written
 * out from document 01, "Observing". */
#include "host.h"

void set_taken(guard_monitor *monitor, uint32_t taken)
{
    for (int i = 0; i < 4; i++)
        monitor->bytes[TAKEN_AT + i] = (uint8_t)(taken >> 8 * i);
}

guard_answer observe(const guard_book *book, guard_monitor *monitor, struct observation o)
{
    return o.clock ? guard_clock(book, monitor, o.time) : guard_event(book, monitor, o.name, o.time);
}

static guard_answer whole(void)
{
    return answer(GUARD_WHOLE, 0, 0, 0);
}

static guard_answer open_rule(void)
{
    return answer(GUARD_OPEN, 0, 1, 0);
}

static guard_answer refused(uint8_t number)
{
    return answer(GUARD_REFUSED, number, 0, 0);
}

static long steps; /* observations of the check under way */

/* An observation that is due an answer; a refused one has to leave book and monitor as they are, byte by byte. */
static long wrong_step(const guard_book *book, guard_monitor *monitor, int clock, uint32_t name, uint32_t time, guard_answer due)
{
    static guard_book old_book;
    guard_monitor old = *monitor;
    old_book = *book;
    steps++;
    struct observation o = {clock, name, time, due};
    guard_answer a = observe(book, monitor, o), held = guard_verdict(monitor);
    long wrong = !same_answer(a, due) || memcmp(book, &old_book, sizeof old_book) != 0;
    if (a.answer == GUARD_REFUSED)
        return wrong | (memcmp(monitor, &old, sizeof old) != 0);
    return wrong | !same_answer(held, a);
}

/* "13, 4,294,967,295 already taken": the last number there is is given out, the next is not, and 12 and 11 are looked for first. */
static void check_count(void)
{
    guard_book book;
    guard_monitor monitor;
    long wrong = steps = 0;
    guard_open(&book, &monitor, sheet_t, T_BYTES);
    wrong += wrong_step(&book, &monitor, 0, 0, 7, open_rule());
    wrong += guard_taken(&monitor) != 1;
    set_taken(&monitor, ALL - 1);
    wrong += guard_taken(&monitor) != ALL - 1;
    wrong += wrong_step(&book, &monitor, 0, 0, 8, open_rule());
    wrong += guard_taken(&monitor) != ALL;
    wrong += wrong_step(&book, &monitor, 0, 0, 8, refused(13));
    wrong += wrong_step(&book, &monitor, 1, 0, 9, refused(13));
    wrong += wrong_step(&book, &monitor, 0, 63, ALL, refused(13));
    wrong += wrong_step(&book, &monitor, 0, 0, 7, refused(11));
    wrong += wrong_step(&book, &monitor, 1, 0, 0, refused(11));
    wrong += wrong_step(&book, &monitor, 0, 64, 8, refused(12));
    wrong += guard_taken(&monitor) != ALL || !same_answer(guard_verdict(&monitor), open_rule());
    tell("the count's end: 13, after 12 and 11", steps, wrong);
}

/* k is the last number there is, and a stopped book answers it for good. */
static void check_last_break(void)
{
    guard_book book;
    guard_monitor monitor;
    long wrong = steps = 0;
    guard_open(&book, &monitor, sheet_n, N_BYTES);
    set_taken(&monitor, ALL - 1);
    guard_answer broken = answer(GUARD_BROKEN, 0, 1, ALL);
    wrong += wrong_step(&book, &monitor, 0, 2, 0, broken);
    wrong += wrong_step(&book, &monitor, 0, 2, 0, broken);
    wrong += wrong_step(&book, &monitor, 1, 0, 5, broken);
    wrong += guard_taken(&monitor) != ALL;
    tell("a break at the last count", steps, wrong);
}

/* "12 (a name of 64 or more)": also those whose low bytes are a name, and a log's FF. Then "a time before the latest". */
static void check_refused(void)
{
    static const uint32_t names[] = {64, 65, 127, 128, 254, 255, 256, 257, 319, 65535, 65536, 65537, 16777216, 2147483648u, ALL - 63, ALL};
    guard_book book;
    guard_monitor monitor;
    long wrong = steps = 0;
    guard_open(&book, &monitor, sheet_r, R_BYTES);
    wrong += wrong_step(&book, &monitor, 0, 1, 5, open_rule());
    for (size_t i = 0; i < sizeof names / sizeof *names; i++)
        for (uint32_t time = 4; time <= 6; time++)
            if (wrong_step(&book, &monitor, 0, names[i], time, refused(12)))
                wrong += differs("a refused name", names[i]);
    for (uint32_t time = 0; time <= 4; time++) {
        wrong += wrong_step(&book, &monitor, 0, time, time, refused(11));
        wrong += wrong_step(&book, &monitor, 1, 0, time, refused(11));
    }
    wrong += wrong_step(&book, &monitor, 0, 63, 5, open_rule());
    wrong += wrong_step(&book, &monitor, 0, 0, 5, open_rule());
    wrong += wrong_step(&book, &monitor, 0, 2, 5, whole());
    wrong += guard_taken(&monitor) != 4;
    tell("refused observations, book and monitor as they were", steps, wrong);
}

/* "A stopped book gives that same answer to every later observation, unchecked." */
static void check_stopped(void)
{
    guard_book book;
    guard_monitor monitor;
    long wrong = steps = 0;
    guard_answer broken = answer(GUARD_BROKEN, 0, 1, 3);
    guard_open(&book, &monitor, sheet_t, T_BYTES);
    wrong += wrong_step(&book, &monitor, 0, 0, 0, open_rule());
    wrong += wrong_step(&book, &monitor, 0, 0, 5, open_rule());
    wrong += wrong_step(&book, &monitor, 0, 1, 16, broken);
    guard_monitor stopped = monitor;
    for (uint32_t name = 0; name < 300; name++) {
        wrong += wrong_step(&book, &monitor, name % 3 == 0, name, name % 40, broken);
        wrong += memcmp(&stopped, &monitor, sizeof stopped) != 0;
    }
    wrong += guard_taken(&monitor) != 3;
    tell("observations of a stopped book", steps, wrong);
}

/* One name so many times, and what the last of them is answered. */
static guard_answer again(const guard_book *book, guard_monitor *monitor, uint32_t name, uint32_t times)
{
    guard_answer a = guard_verdict(monitor);
    for (uint32_t i = 0; i < times; i++, steps++)
        a = guard_event(book, monitor, name, 0);
    return a;
}

/* A range's count at its largest v, 65,535, in a row and, with each other join, by halves with the sibling's between them: the last is taken, one more breaks the rule, and below u the
 * trigger does. The counts of the round before are forgotten. */
static void check_most(void)
{
    uint8_t sheet[O_BYTES];
    guard_book book;
    guard_monitor monitor, full;
    long wrong = steps = 0;
    memcpy(sheet, sheet_o, O_BYTES);
    memset(sheet + 25, 0xFF, 4), memset(sheet + 30, 0xFF, 4); /* 0[65535,65535] and 1[65535,65535] */
    for (uint8_t join = 0; join < 4; join++) {
        uint32_t half = join < 2 ? 65535 : 32768;
        sheet[22] = join;
        guard_open(&book, &monitor, sheet, O_BYTES);
        for (int round = 0; round < 2; round++) {
            for (uint32_t taken = 0; taken < 65535; taken += half)
                for (uint32_t name = 0; name < 2; name++) {
                    full = monitor;
                    wrong += !same_answer(again(&book, &monitor, name, taken + half < 65535 ? half : 65535 - taken), open_rule());
                }
            guard_monitor short_of_one = full, one_more = monitor;
            again(&book, &short_of_one, 1, join < 2 ? 65534 : 32766);
            wrong += again(&book, &short_of_one, 2, 1).answer != GUARD_BROKEN;
            wrong += again(&book, &one_more, 1, 1).answer != GUARD_BROKEN;
            one_more = monitor;
            wrong += again(&book, &one_more, 0, 1).answer != GUARD_BROKEN;
            wrong += !same_answer(again(&book, &monitor, 2, 1), whole());
        }
    }
    tell("65,535 of a name, and one more or fewer, with each join", steps, wrong);
}

/* guard_start gives what guard_open gives, whatever stood there: by the session's answers and by every byte, which are the same for every book. */
static void check_start(void)
{
    static guard_book book;
    guard_monitor fresh;
    long count = 0, wrong = 0;
    scramble(&fresh, sizeof fresh);
    guard_start(&fresh);
    for (size_t i = 0; i < case_count; i++) {
        const struct reference_case *c = &cases[i];
        guard_monitor first, again;
        if (!opens(c))
            continue;
        guard_open(&book, &first, c->sheet, c->sheet_length);
        if (count % 2)
            scramble(&again, sizeof again);
        else
            again = first, wrong_live(c, &book, &again);
        guard_start(&again);
        count++;
        if (memcmp(&first, &fresh, sizeof first) != 0 || memcmp(&again, &fresh, sizeof again) != 0 || guard_taken(&again) != 0 ||
            !same_answer(guard_verdict(&again), whole()) || wrong_live(c, &book, &again))
            wrong += differs("a fresh session of a case", (long)i);
    }
    tell("fresh starts", count, wrong);
}

/* Two sessions under one book, one observation of each by turns: each has the answers that it has alone. */
static void check_two(void)
{
    static guard_book book;
    long count = 0, wrong = 0;
    for (size_t i = 0; i < case_count; i++) {
        const struct reference_case *c = &cases[i];
        guard_monitor one, two;
        if (!opens(c) || c->before)
            continue;
        guard_open(&book, &one, c->sheet, c->sheet_length);
        guard_start(&two);
        size_t lead = c->count / 2;
        for (size_t k = 0; k < c->count + lead; k++) {
            if (k < c->count)
                wrong += !same_answer(observe(&book, &one, observation_of(c, k)), observation_of(c, k).due), count++;
            if (k >= lead)
                wrong += !same_answer(observe(&book, &two, observation_of(c, k - lead)), observation_of(c, k - lead).due), count++;
        }
        wrong += guard_taken(&one) != c->taken || guard_taken(&two) != c->taken;
    }
    tell("two sessions under one book, answers", count, wrong);
}

void check_sessions(void)
{
    check_count();
    check_last_break();
    check_refused();
    check_stopped();
    check_most();
    check_start();
    check_two();
}
