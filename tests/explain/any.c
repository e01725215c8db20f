/* Any bytes: explain's own functions, without its files, on sheets, logs and names that are changed, cut off, prolonged or made up, each in memory of just its length, so
 * that the compiler's checks see a read past it. It must end as guard_run's answer says, and never because it could not run.
 *
 *     any ROUNDS COUNT FILE...   so many sheets to start from, and then logs; what explain prints goes to standard output
 */
#include "../../tools/explain/explain.h"

#include <stdio.h>
#include <stdlib.h>
#include <string.h>

static uint64_t state = 1505;

static uint64_t number(void)
{
    uint64_t x = state += 0x9E3779B97F4A7C15u;
    x = (x ^ x >> 30) * 0xBF58476D1CE4E5B9u;
    x = (x ^ x >> 27) * 0x94D049BB133111EBu;
    return x ^ x >> 31;
}

static size_t below(size_t n)
{
    return (size_t)(number() % n);
}

static struct bytes room(size_t length)
{
    struct bytes b = {malloc(length > 0 ? length : 1), length};
    if (b.at == NULL)
        abort();
    return b;
}

static struct bytes load(const char *path)
{
    struct bytes b = room(65536);
    FILE *file = fopen(path, "rb");
    if (file == NULL)
        abort();
    b.length = fread(b.at, 1, b.length, file);
    fclose(file);
    return b;
}

/* Bytes that a field may hold, those next to them, and any. */
static uint8_t some_byte(void)
{
    static const uint8_t edges[] = {0, 1, 2, 3, 8, 9, 16, 17, 63, 64, 254, 255};
    return below(2) ? edges[below(sizeof edges)] : (uint8_t)number();
}

static struct bytes changed(struct bytes from)
{
    size_t kept = below(4) ? from.length : below(from.length + 1);
    struct bytes b = room(kept + (below(4) ? 0 : below(8)));
    memcpy(b.at, from.at, kept);
    for (size_t i = kept; i < b.length; i++)
        b.at[i] = some_byte();
    for (size_t changes = below(5); changes > 0 && b.length > 0; changes--)
        b.at[below(b.length)] = some_byte();
    return b;
}

static struct bytes made_up(void)
{
    struct bytes b = room(below(300));
    for (size_t i = 0; i < b.length; i++)
        b.at[i] = some_byte();
    return b;
}

/* The status that guard_run's answer calls for. */
static enum status due(const struct desk *d)
{
    static const enum status statuses[] = {WHOLE_OR_OPEN, WHOLE_OR_OPEN, BROKEN, REFUSED};
    uint8_t out[GUARD_OUTPUT_BYTES];
    guard_run(d->book.at, d->book.length, d->log.at, d->log.length, UINT32_MAX, out, sizeof out);
    return statuses[out[0]];
}

static long wrong_round(struct bytes sheet, struct bytes log, long *ended)
{
    static struct desk d;
    static uint8_t text[] = "in 0 a\nout 1 b # the second\n  in 2\tc\nrule R each 0 << 2\nout 63 d\n";
    struct bytes from = {text, sizeof text - 1}, names = changed(from);
    size_t line;
    memset(&d, 0, sizeof d);
    d.book = below(20) ? changed(sheet) : made_up();
    d.log = below(20) ? changed(log) : made_up();
    read_names(&d.names, names, &line);
    enum status status = explain(&d);
    long wrong = status != due(&d);
    ended[status]++;
    free(d.book.at), free(d.log.at), free(names.at);
    return wrong;
}

#define FILES 256

int main(int argc, char **argv)
{
    long rounds = argc > 3 ? atol(argv[1]) : 0, wrong = 0, ended[4] = {0, 0, 0, 0};
    size_t sheets = argc > 3 ? (size_t)atol(argv[2]) : 0, count = 0;
    struct bytes files[FILES];
    while (count < FILES && argv[count + 3] != NULL)
        files[count] = load(argv[count + 3]), count++;
    for (long i = 0; i < rounds; i++)
        wrong += wrong_round(files[below(sheets)], files[sheets + below(count - sheets)], ended);
    while (count > 0)
        free(files[--count].at);
    int few = ended[WHOLE_OR_OPEN] < 100 || ended[BROKEN] < 100 || ended[REFUSED] < 100;
    fprintf(stderr, "explain, any bytes in memory of their length: %ld whole or open, %ld broken, %ld refused, %s\n", ended[WHOLE_OR_OPEN], ended[BROKEN], ended[REFUSED],
            wrong ? "NOT AS DUE"
            : few ? "TOO FEW of a kind"
                  : "as due");
    return wrong > 0 || few;
}
