/* An example of a live host: it asks the guard before each call between host and plugin, reads the clock by a timer, stops the plugin at a break and says the broken rule in
 * words, and stops it where it cannot be judged. The clock and the plugin are simulated: each story below is a list of calls at times.
 *
 *     cc -std=c99 -Wall -Wextra -Werror -I include -o stop examples/host/stop.c target/libguard.a
 *
 * The order is the point: a call that is made first and shown to the guard afterwards has happened, whatever the guard says. */
#include "guard.h"
#include <stdio.h>

/* ---- what the host knows of its plugin: the numbers of the calls, the sheet (`calc` in docs/SHEETS.md) and its rules in words */

enum { SET_RANGE, SET_LOCALE, START, RECALC, WRITE_CELL, FINISH };

static const char *const calls[] = {"set-range", "set-locale", "start", "recalc", "write-cell", "finish"};

static const char *const rules[] = {
    "set the range and the locale, in either order, before each start",
    "after a recalc write 1 to 1,000 cells and finish within 500 ms",
};

static const uint8_t sheet[] = {
    0x4C, 0x4F, 0x42, 1, 0, 0x30, 0, 0, 0, 0, 0, 0, 0, 2,       /* mark, version, outputs 4 and 5, two rules */
    1, 1, 0, 2, 0, 0, 0, 0,                                     /* each .. << start */
    0, 2, 0, 1, 0, 1, 0, 1, 1, 0, 1, 0,                         /* all{set-range, set-locale} */
    2, 1, 2, 0, 0xF4, 1, 0, 0,                                  /* within 500 .. => .. */
    0, 1, 3, 1, 0, 1, 0,                                        /* recalc */
    0, 1, 4, 1, 0, 0xE8, 3, 0, 1, 5, 1, 0, 1, 0,                /* write-cell[1,1000] < finish */
};

/* ---- a session: one plugin under the guard */

#define PERIOD 100 /* ms from one reading of the clock to the next: a silent plugin is stopped at most so much after its deadline */

static uint64_t now; /* the machine's clock in ms, simulated. It has 64 bits: 32 run over after 49 days */

struct session {
    guard_book book;
    guard_monitor monitor;
    uint64_t began; /* on the machine's clock; the session's times count from there */
    int open;       /* some rule is open: only then can a deadline run, and the timer is needed */
    int stopped;
};

static void stop(struct session *s, const char *why)
{
    printf("  stopped: %s\n", why);
    s->stopped = 1; /* here a real host ends the plugin: it gets no call any more, and none of its calls is made */
}

/* The session's time, if it fits in 32 bits. One that had run over would be refused (11), or taken for an early one. */
static int time_fits(struct session *s, uint32_t *time)
{
    uint64_t passed = now - s->began;
    if (now < s->began || passed > UINT32_MAX) {
        stop(s, "the session's 32-bit time is over");
        return 0;
    }
    *time = (uint32_t)passed;
    return 1;
}

static void tell(uint32_t time, const char *what, const char *name, guard_answer a)
{
    static const char *const answers[] = {"whole", "open", "broken", "refused"};
    printf("%10u %s%s: %s\n", (unsigned)time, what, name, answers[a.answer]);
}

/* Whether the plugin may go on. Whole and open say so; a break does not, and neither does a refusal: what was refused was not judged. */
static int passes(struct session *s, guard_answer a)
{
    s->open = a.answer == GUARD_OPEN;
    if (a.answer == GUARD_WHOLE || a.answer == GUARD_OPEN)
        return 1;
    if (a.answer == GUARD_REFUSED)
        stop(s, "this was refused, so nothing has judged it");
    for (unsigned r = 0; r < 16; r++)
        if (a.answer == GUARD_BROKEN && (a.mask >> r & 1))
            stop(s, rules[r]);
    return 0;
}

static const char *name_of(uint32_t name)
{
    return name < sizeof calls / sizeof *calls ? calls[name] : "something else";
}

/* Here a real host calls its plugin, or does what the plugin has asked for. */
static void make_call(uint32_t time, uint32_t name)
{
    printf("%10u %s\n", (unsigned)time, name_of(name));
}

/* Host or plugin wants to make a call: the guard is asked first. */
static void want_call(struct session *s, uint32_t name)
{
    uint32_t time;
    if (s->stopped || !time_fits(s, &time))
        return;
    guard_answer a = guard_event(&s->book, &s->monitor, name, time);
    tell(time, "ask ", name_of(name), a);
    if (passes(s, a))
        make_call(time, name);
}

/* What the timer does. */
static void read_clock(struct session *s)
{
    uint32_t time;
    if (s->stopped || !time_fits(s, &time))
        return;
    guard_answer a = guard_clock(&s->book, &s->monitor, time);
    tell(time, "timer", "", a);
    passes(s, a);
}

/* Time goes by: the timer runs each PERIOD while some rule is open. */
static void wait_until(struct session *s, uint64_t when)
{
    while (s->open && !s->stopped) {
        uint64_t tick = (now / PERIOD + 1) * PERIOD;
        if (tick >= when)
            break;
        now = tick;
        read_clock(s);
    }
    now = when;
}

/* The plugin is unloaded: nothing more will come. An open rule is no break, but something was begun and not brought to its end. */
static void unload(struct session *s)
{
    if (s->stopped)
        return;
    guard_answer a = guard_verdict(&s->monitor);
    printf("  unloaded\n");
    for (unsigned r = 0; r < 16; r++)
        if (a.mask >> r & 1)
            printf("  unfinished: %s\n", rules[r]);
}

/* ---- the stories */

struct want {
    uint64_t at;
    uint32_t name;
};

#define MOST 8

struct story {
    const char *title;
    uint64_t end; /* when the plugin is unloaded */
    unsigned count;
    struct want wants[MOST];
};

static const struct story stories[] = {
    {"a round of each rule", 600, 8,
     {{0, SET_LOCALE}, {5, SET_RANGE}, {9, START}, {20, RECALC}, {30, WRITE_CELL}, {30, WRITE_CELL}, {40, WRITE_CELL}, {520, FINISH}}},
    {"a recalc before the last one is finished", 600, 3, {{0, RECALC}, {10, WRITE_CELL}, {20, RECALC}}},
    {"the plugin falls silent", 5000, 2, {{30, RECALC}, {60, WRITE_CELL}}},
    {"a late call, before the timer", 600, 3, {{30, RECALC}, {60, WRITE_CELL}, {531, FINISH}}},
    {"a start without its locale", 600, 2, {{0, SET_RANGE}, {10, START}}},
    {"the clock falls", 600, 3, {{250, SET_RANGE}, {240, SET_LOCALE}, {260, START}}},
    {"a call that the host has no number for", 600, 2, {{0, SET_RANGE}, {10, 64}}},
    {"49 days", 4294968000, 4, {{0, RECALC}, {10, WRITE_CELL}, {20, FINISH}, {4294967296, RECALC}}},
    {"unloaded while it works", 250, 3, {{0, SET_RANGE}, {30, RECALC}, {60, WRITE_CELL}}},
};

int main(void)
{
    static struct session s;
    for (size_t i = 0; i < sizeof stories / sizeof *stories; i++) {
        const struct story *story = &stories[i];
        printf("%s\n", story->title);
        now = 0;
        s.began = now;
        s.open = s.stopped = 0;
        guard_answer a = guard_open(&s.book, &s.monitor, sheet, sizeof sheet);
        if (a.answer == GUARD_REFUSED) { /* no sheet, no plugin */
            printf("  the sheet is refused: %u at byte %u\n", (unsigned)a.refusal, (unsigned)a.place);
            return 1;
        }
        for (unsigned w = 0; w < story->count; w++) {
            wait_until(&s, story->wants[w].at);
            want_call(&s, story->wants[w].name);
        }
        wait_until(&s, story->end);
        unload(&s);
    }
    return 0;
}
