/* A live host of a plugin that writes cells and styles alternately. It asks the guard before each call and stops the plugin at a break; examples/host/stop.c is the whole of what a host
 * does, its timer included. The sheet is `styles` of styles.txt; times are simulated, ten milliseconds a call.
 *
 *     cc -std=c99 -Wall -Wextra -Werror -I include -o live examples/styles/live.c target/libguard.a
 */
#include "guard.h"
#include <stdio.h>

enum { RECALC, SAVE, WRITE_CELL, WRITE_STYLE, WRITE_BORDER, FINISH };

static const char *const calls[] = {"recalc", "save", "write-cell", "write-style", "write-border", "finish"};

static const uint8_t sheet[] = {
    0x4C, 0x4F, 0x42, 2, 0, 0x3C, 0, 0, 0, 0, 0, 0, 0, 2, /* mark, version 2, outputs 2 to 5, two rules */
    2, 1, 2, 0, 0xF4, 1, 0, 0,                            /* within 500 .. => .. */
    0, 1, 0, 1, 0, 1, 0,                                  /* recalc */
    2, 2, 2, 1, 0, 0xE8, 3, 3, 1, 0, 0xE8, 3,             /* all{write-cell[1,1000], write-style[1,1000]} shuffled */
    0, 1, 5, 1, 0, 1, 0,                                  /* finish */
    1, 1, 0, 1, 0, 0, 0, 0,                               /* each .. << save */
    3, 2, 2, 1, 0, 0xFF, 0xFF, 4, 4, 0, 4, 0,             /* any{write-cell+, write-border[4,4]} shuffled */
};

static guard_book book;
static guard_monitor monitor;
static uint32_t now;

/* Host or plugin wants to make a call: the guard is asked first. 1 if the call is made. */
static int call(uint32_t name)
{
    static const char *const answers[] = {"whole", "open", "broken", "refused"};
    now += 10;
    guard_answer a = guard_event(&book, &monitor, name, now);
    printf("%6u %s: %s\n", (unsigned)now, calls[name], answers[a.answer]);
    return a.answer == GUARD_WHOLE || a.answer == GUARD_OPEN;
}

/* ---- the plugin */

static int cells_and_styles(int count)
{
    for (int i = 0; i < count; i++)
        if (!call(WRITE_CELL) || !call(WRITE_STYLE))
            return 0;
    return 1;
}

static int frame(int sides)
{
    for (int i = 0; i < sides; i++)
        if (!call(WRITE_BORDER))
            return 0;
    return 1;
}

/* ---- three stories */

static int alternately(void)
{
    return call(RECALC) && cells_and_styles(3) && frame(2) && cells_and_styles(1) && frame(2) && call(FINISH) && call(SAVE);
}

static int three_sides(void)
{
    return call(RECALC) && cells_and_styles(1) && frame(3) && call(FINISH) && call(SAVE);
}

static int no_style(void)
{
    return call(RECALC) && call(WRITE_CELL) && call(FINISH);
}

static void tell(const char *title, int (*story)(void))
{
    printf("%s\n", title);
    now = 0;
    guard_start(&monitor);
    printf("  %s\n", story() ? "it went through" : "stopped");
}

int main(void)
{
    guard_answer a = guard_open(&book, &monitor, sheet, sizeof sheet);
    if (a.answer == GUARD_REFUSED) {
        printf("the sheet is refused: %u at byte %u\n", (unsigned)a.refusal, (unsigned)a.place);
        return 1;
    }
    tell("cells and styles alternately, and a frame between them", alternately);
    tell("a frame with three sides, and a save", three_sides);
    tell("a cell without its style", no_style);
    return 0;
}
