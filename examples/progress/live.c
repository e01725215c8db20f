/* A live host of a plugin that reports its progress as often as it likes. It asks the guard before each call and stops the plugin at a break; examples/host/stop.c is the whole of what a host
 * does, its timer included. The sheet is `progress` of progress.txt; times are simulated, ten milliseconds a call.
 *
 *     cc -std=c99 -Wall -Wextra -Werror -I include -o live examples/progress/live.c target/libguard.a
 */
#include "guard.h"
#include <stdio.h>

enum { START, KEY, PRINT, PROGRESS, FINISH };

static const char *const calls[] = {"start", "key", "print", "progress", "finish"};

static const uint8_t sheet[] = {
    0x4C, 0x4F, 0x42, 2, 0, 0xF8, 0, 0, 0, 0, 0, 0, 0, 3, /* mark, version 2, outputs 3 to 7, three rules */
    2, 1, 2, 0, 0x80, 0xEE, 0x36, 0,                      /* within 3600000 .. => .. */
    0, 1, 0, 1, 0, 1, 0,                                  /* start */
    0, 1, 3, 2, 0, 0, 0,                                  /* progress[2,]: v = 0 is no upper end */
    0, 1, 4, 1, 0, 1, 0,                                  /* finish */
    2, 1, 1, 0, 0x2C, 1, 0, 0,                            /* within 300 .. => .. */
    0, 1, 1, 1, 0, 0, 0,                                  /* key[1,] */
    0, 1, 5, 1, 0, 1, 0,                                  /* suggest */
    1, 1, 0, 2, 0, 0, 0, 0,                               /* each .. << print */
    2, 2, 6, 1, 0, 0, 0, 7, 2, 0, 0, 0,                   /* all{page[1,], image[2,]} shuffled */
};

static guard_book book;
static guard_monitor monitor;
static uint32_t now;

/* Host or plugin wants to make a call, so many times: the guard is asked before each. 1 if every one is made. */
static int call(uint32_t name, unsigned times)
{
    static const char *const answers[] = {"whole", "open", "broken", "refused"};
    guard_answer a = guard_verdict(&monitor);
    unsigned made = 0;
    do {
        now += 10;
        a = guard_event(&book, &monitor, name, now);
        made++;
    } while (made < times && (a.answer == GUARD_WHOLE || a.answer == GUARD_OPEN));
    printf("%6u %s", (unsigned)now, calls[name]);
    if (made > 1)
        printf(" x%u", made);
    printf(": %s\n", answers[a.answer]);
    return a.answer == GUARD_WHOLE || a.answer == GUARD_OPEN;
}

/* ---- three stories */

static int many_reports(void)
{
    return call(START, 1) && call(PROGRESS, 100000) && call(FINISH, 1);
}

static int one_report(void)
{
    return call(START, 1) && call(PROGRESS, 1) && call(FINISH, 1);
}

static int report_after_finish(void)
{
    return call(START, 1) && call(PROGRESS, 3) && call(FINISH, 1) && call(PROGRESS, 1);
}

static void tell(const char *title, int (*story)(void))
{
    printf("%s\n", title);
    now = 0;
    guard_start(&monitor);
    printf("  %s\n", story() ? "it went through" : "stopped");
}

int main(void)
{
    guard_answer a = guard_open(&book, &monitor, sheet, sizeof sheet);
    if (a.answer == GUARD_REFUSED) {
        printf("the sheet is refused: %u at byte %u\n", (unsigned)a.refusal, (unsigned)a.place);
        return 1;
    }
    tell("a job with a hundred thousand reports", many_reports);
    tell("a job with one report", one_report);
    tell("a report after the finish", report_after_finish);
    return 0;
}
