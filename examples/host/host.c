/* An example of a host: it runs trace.lot under book.lob, both in the current folder, once by guard_run and once as a live session, call by call, and prints the five numbers.
 * Exit status 1 if the two differ. It is a test: a real host reads no log, but asks before each call and stops the plugin, as stop.c does.
 *
 *     cc -std=c99 -I include -o host examples/host/host.c target/libguard.a
 */
#include "guard.h"
#include <stdio.h>

static uint8_t sheet[GUARD_SHEET_BYTES + 1], trace[65536];

static size_t load(const char *path, uint8_t *bytes, size_t most)
{
    FILE *f = fopen(path, "rb");
    if (f == NULL)
        return 0;
    size_t n = fread(bytes, 1, most, f);
    fclose(f);
    return n;
}

static uint32_t number(const uint8_t *p, int n)
{
    uint32_t x = 0;
    for (int i = 0; i < n; i++)
        x |= (uint32_t)p[i] << 8 * i;
    return x;
}

/* The answer of the last record looked at: a log ends at the first refusal or break. */
static guard_answer live(const guard_book *book, guard_monitor *monitor, size_t records)
{
    guard_answer a = guard_verdict(monitor);
    for (size_t i = 0; i < records && a.answer < GUARD_BROKEN; i++) {
        const uint8_t *r = trace + GUARD_RECORD_BYTES * i;
        uint32_t time = number(r + 1, 4);
        a = r[0] == 0xFF ? guard_clock(book, monitor, time) : guard_event(book, monitor, r[0], time);
    }
    return a;
}

int main(void)
{
    static guard_book book;
    guard_monitor monitor;
    uint8_t out[GUARD_OUTPUT_BYTES];
    size_t n = load("book.lob", sheet, sizeof sheet), k = load("trace.lot", trace, sizeof trace);
    guard_run(sheet, n, trace, k, UINT32_MAX, out, sizeof out);
    printf("%u %u %u %u %u\n", (unsigned)out[0], (unsigned)out[1], (unsigned)number(out + 2, 2), (unsigned)number(out + 4, 4), (unsigned)number(out + 8, 4));
    guard_answer a = guard_open(&book, &monitor, sheet, n);
    if (a.answer == GUARD_REFUSED)
        return out[0] != GUARD_REFUSED || out[1] != a.refusal || number(out + 8, 4) != a.place;
    if (k % GUARD_RECORD_BYTES != 0)
        return out[1] != GUARD_LOG_LENGTH;
    a = live(&book, &monitor, k / GUARD_RECORD_BYTES);
    return out[0] != a.answer || out[1] != a.refusal || number(out + 4, 4) != guard_taken(&monitor);
}
