/* Books written back: "For each accepted sheet, writing its book gives the sheet's own bytes and version, and reading these gives the same book. The answer is the number of bytes written.
 * Bytes of the buffer past the sheet don't change." "Turned away: 16, buffer shorter than the sheet, nothing written." The buffer ends or starts at a page's edge, and the book can't be
 * written meanwhile. The sheets are those of host.h, and those that sheets.py has found and made. */
#include "host.h"

#define ROOM 8192         /* between the forbidden pages */
#define SHORT_AT_LEAST 100 /* of the writes have to be turned away */

struct desk {
    struct pages books, buffers;
    guard_book *book;
    uint8_t before[ROOM]; /* what stands in the buffers' pages at each call */
};

struct tally {
    long written, refused, opened, wrong_written, wrong_refused, wrong_opened;
};

/* One call with a buffer of so many bytes: its answer, and every byte between the forbidden pages. Then all is as before the call again. */
static long wrong_write(const struct desk *d, int at_end, size_t length, const uint8_t *sheet, size_t sheet_length)
{
    uint8_t *all = d->buffers.start, *buffer = edge(d->buffers, at_end, length);
    size_t from = (size_t)(buffer - all), written = length < sheet_length ? 0 : sheet_length, after = from + written;
    int64_t due = length < sheet_length ? -16 : (int64_t)sheet_length;
    long wrong = guard_write(d->book, buffer, length) != due || memcmp(all, d->before, from) != 0 || memcmp(buffer, sheet, written) != 0 ||
                 memcmp(all + after, d->before + after, ROOM - after) != 0;
    memcpy(all, d->before, ROOM);
    return wrong;
}

/* The bytes in a buffer that they fill, opened where they stand: the same book, word for word. */
static long wrong_again(const struct desk *d, int at_end, size_t length)
{
    static guard_book again;
    guard_monitor monitor;
    uint8_t *buffer = edge(d->buffers, at_end, length);
    memset(&again, 0xA5, sizeof again);
    long wrong = guard_write(d->book, buffer, length) != (int64_t)length || !same_answer(guard_open(&again, &monitor, buffer, length), answer(GUARD_WHOLE, 0, 0, 0)) ||
                 memcmp(&again, d->book, sizeof again) != 0;
    memcpy(d->buffers.start, d->before, ROOM);
    return wrong;
}

/* One sheet, with buffers of every length around its own, and of 5,774 bytes and more. */
static void check_sheet(struct desk *d, long number, const uint8_t *sheet, size_t length, struct tally *n)
{
    const size_t lengths[] = {0, 1, length - 2, length - 1, length, length + 1, length + 2, length + 3, GUARD_SHEET_BYTES, GUARD_SHEET_BYTES + 1, ROOM};
    guard_monitor monitor;
    for (int at_end = 0; at_end < 2; at_end++) {
        d->book = (void *)edge(d->books, at_end, sizeof *d->book);
        writable(d->books);
        if (guard_open(d->book, &monitor, sheet, length).answer != GUARD_WHOLE) {
            n->wrong_opened += differs("a sheet to be written back is refused", number);
            return;
        }
        read_only(d->books);
        for (size_t i = 0; i < sizeof lengths / sizeof *lengths; i++) {
            long wrong = wrong_write(d, at_end, lengths[i], sheet, length);
            if (lengths[i] < length)
                n->refused++, n->wrong_refused += wrong;
            else
                n->written++, n->wrong_written += wrong;
            if (wrong)
                differs(lengths[i] < length ? "a buffer shorter than the sheet" : "a book written back", number);
        }
        n->opened++;
        if (wrong_again(d, at_end, length))
            n->wrong_opened += differs("written bytes opened again", number);
    }
}

/* The library's own call answers minus 16 in 64 bits, and the header's -16; a buffer of no bytes may stand nowhere. */
static void check_words(void)
{
    static guard_book book;
    guard_monitor monitor;
    uint8_t buffer[R_BYTES];
    guard_open(&book, &monitor, sheet_r, R_BYTES);
    long wrong = guard4_write(book.words, buffer, R_BYTES - 1) != 18446744073709551600u;
    wrong += guard4_write(book.words, buffer, R_BYTES) != R_BYTES;
    wrong += guard4_write(book.words, NULL, 0) != 18446744073709551600u;
    wrong += guard_write(&book, NULL, 0) != -16;
    tell("the writer's number, and a buffer of no bytes", 4, wrong);
}

void check_writing(const char *path)
{
    static const struct {
        const uint8_t *bytes;
        size_t length;
    } by_hand[] = {{sheet_t, T_BYTES}, {sheet_r, R_BYTES}, {sheet_n, N_BYTES}, {sheet_s, S_BYTES}, {sheet_a, A_BYTES}, {sheet_o, O_BYTES},
                   {sheet_w, W_BYTES}, {sheet_e, E_BYTES}, {sheet_f, F_BYTES}, {sheet_g, G_BYTES}, {sheet_h, H_BYTES}};
    static struct desk d;
    struct tally n;
    size_t length;
    const uint8_t *at = file_bytes(path, &length), *end = at + length;
    long number = 0;
    memset(&n, 0, sizeof n);
    d.books = pages_for(sizeof(guard_book)), d.buffers = pages_for(ROOM);
    scramble(d.before, ROOM);
    memcpy(d.buffers.start, d.before, ROOM);
    check_words();
    for (size_t i = 0; i < sizeof by_hand / sizeof *by_hand; i++)
        check_sheet(&d, (long)i, by_hand[i].bytes, by_hand[i].length, &n);
    for (; end - at >= 2 && (size_t)(end - at) >= 2 + (at[0] | (size_t)at[1] << 8); number++) {
        length = at[0] | (size_t)at[1] << 8;
        check_sheet(&d, number, at + 2, length, &n);
        at += 2 + length;
    }
    tell("sheets to be written back", number, at != end);
    tell("books written back, the sheet's own bytes and the rest of the buffer as it was", n.written, n.wrong_written);
    tell("buffers shorter than the sheet, 16 and as they were", n.refused, n.wrong_refused + (n.refused < SHORT_AT_LEAST));
    tell("written bytes opened again, the same book word for word", n.opened, n.wrong_opened);
}
