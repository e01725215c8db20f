/* The library's calls for examples.py: a line in, a line out.
 *
 *     run SHEET LOG OUTPUT            guard_run with an output of that many bytes: what it returns, then all 16 bytes of the buffer, which was filled with A5
 *     live SHEET TAKEN NAME@TIME ..   a session that has taken so many before: for the opening and each observation ANSWER:REFUSAL:MASK:PLACE, then the taken count
 *     write SHEET LENGTH              the sheet opened and its book written into a buffer of that many bytes: what guard_write returns, then the buffer and 4 bytes more, filled with A5
 *     play SHEET RULE TIME CHOICE LENGTH   the sheet opened and a round played into an output of that many bytes: what guard_play returns, then the output in the same way
 *
 * Bytes are in hexadecimal, - for none; the name c is a reading of the clock. */
#include "guard.h"
#include <stdio.h>
#include <stdlib.h>
#include <string.h>

static uint8_t sheet[1 << 16], records[1 << 17];

static size_t bytes_of(const char *word, uint8_t *bytes, size_t most)
{
    size_t n = strcmp(word, "-") == 0 ? 0 : strlen(word) / 2;
    if (n > most)
        exit(2);
    for (size_t i = 0; i < n; i++) {
        char pair[3] = {word[2 * i], word[2 * i + 1], 0};
        bytes[i] = (uint8_t)strtoul(pair, NULL, 16);
    }
    return n;
}

static char *word(void)
{
    char *w = strtok(NULL, " \n");
    if (w == NULL)
        exit(2);
    return w;
}

static void run(void)
{
    uint8_t out[16];
    size_t n = bytes_of(word(), sheet, sizeof sheet), k = bytes_of(word(), records, sizeof records);
    memset(out, 0xA5, sizeof out);
    printf("%u ", (unsigned)guard_run(sheet, n, records, k, UINT32_MAX, out, (size_t)strtoul(word(), NULL, 10)));
    for (size_t i = 0; i < sizeof out; i++)
        printf("%02X", out[i]);
    printf("\n");
}

/* The monitor's layout is the guard's own: the count is the half word that guard_taken reads. */
static void set_taken(guard_monitor *monitor, uint32_t taken)
{
    uint32_t halves[sizeof *monitor / sizeof(uint32_t)];
    for (size_t i = 0; i < sizeof halves / sizeof *halves && guard_taken(monitor) != taken; i++) {
        guard_monitor other;
        memcpy(halves, monitor, sizeof halves);
        halves[i] = taken;
        memcpy(&other, halves, sizeof halves);
        if (guard_taken(&other) == taken)
            *monitor = other;
    }
}

static void tell(guard_answer a)
{
    printf("%u:%u:%u:%u ", (unsigned)a.answer, (unsigned)a.refusal, (unsigned)a.mask, (unsigned)a.place);
}

static void live(void)
{
    static guard_book book;
    static guard_monitor monitor;
    size_t n = bytes_of(word(), sheet, sizeof sheet);
    uint32_t taken = (uint32_t)strtoul(word(), NULL, 10);
    tell(guard_open(&book, &monitor, sheet, n));
    set_taken(&monitor, taken);
    for (char *w = strtok(NULL, " \n"); w != NULL; w = strtok(NULL, " \n")) {
        uint32_t time = (uint32_t)strtoul(strchr(w, '@') + 1, NULL, 10);
        tell(w[0] == 'c' ? guard_clock(&book, &monitor, time) : guard_event(&book, &monitor, (uint32_t)strtoul(w, NULL, 10), time));
    }
    printf("%u\n", (unsigned)guard_taken(&monitor));
}

static uint32_t number(void)
{
    return (uint32_t)strtoul(word(), NULL, 10);
}

/* What a call writes: so many bytes and 4 more, filled with A5. */
static uint8_t *filled(size_t length)
{
    static uint8_t buffer[sizeof sheet];
    if (length > sizeof buffer - 4)
        exit(2);
    return memset(buffer, 0xA5, length + 4);
}

static void tell_written(int64_t returned, const uint8_t *buffer, size_t length)
{
    printf("%lld ", (long long)returned);
    for (size_t i = 0; i < length + 4; i++)
        printf("%02X", buffer[i]);
    printf("\n");
}

/* The book of a sheet; of a refused one something else is written. */
static const guard_book *opened(void)
{
    static guard_book book;
    static guard_monitor monitor;
    size_t n = bytes_of(word(), sheet, sizeof sheet);
    guard_open(&book, &monitor, sheet, n);
    return &book;
}

static void write_back(void)
{
    const guard_book *book = opened();
    size_t length = number();
    uint8_t *buffer = filled(length);
    tell_written(guard_write(book, buffer, length), buffer, length);
}

static void play(void)
{
    const guard_book *book = opened();
    uint32_t rule = number(), time = number();
    size_t n = bytes_of(word(), records, sizeof records), length = number();
    uint8_t *out = filled(length);
    tell_written(guard_play(book, rule, time, records, n, out, length), out, length);
}

int main(void)
{
    static char line[1 << 18];
    while (fgets(line, sizeof line, stdin) != NULL) {
        const char *what = strtok(line, " \n");
        if (what != NULL && strcmp(what, "run") == 0)
            run();
        else if (what != NULL && strcmp(what, "live") == 0)
            live();
        else if (what != NULL && strcmp(what, "write") == 0)
            write_back();
        else if (what != NULL && strcmp(what, "play") == 0)
            play();
        else
            return 2;
        fflush(stdout);
    }
    return 0;
}
