/* Stores the book of a sheet, as a review tool does: the sheet is opened, and from then on the book is all that the tool has. Its sheet is written from the book into another file, which
 * is then compared with the first.
 *
 *     cc -std=c99 -Wall -Wextra -Werror -I include -o store examples/review/store.c target/libguard.a
 *     ./store SHEET COPY [BYTES]
 *
 * BYTES is the length of the buffer that is lent to the guard: 5,774 without it, which is enough for every sheet. Exit status: 0 stored, 1 the files differ, 2 refused, with the number, and
 * COPY is not made, 3 could not run.
 */
#include "guard.h"
#include <stdio.h>
#include <stdlib.h>
#include <string.h>

enum { STORED, DIFFER, REFUSED, COULD_NOT_RUN };

#define ROOM (GUARD_SHEET_BYTES + 1) /* so that a file that is too long is noticed */

struct file {
    uint8_t bytes[ROOM];
    size_t length;
};

static int load(const char *path, struct file *file)
{
    FILE *f = fopen(path, "rb");
    if (f == NULL)
        return 0;
    file->length = fread(file->bytes, 1, ROOM, f);
    int right = ferror(f) == 0;
    return fclose(f) == 0 && right;
}

static int save(const char *path, const uint8_t *bytes, size_t length)
{
    FILE *f = fopen(path, "wb");
    if (f == NULL)
        return 0;
    int written = fwrite(bytes, 1, length, f) == length;
    return fclose(f) == 0 && written;
}

static int fail(const char *path)
{
    fprintf(stderr, "store: %s: cannot be read or written\n", path);
    return COULD_NOT_RUN;
}

/* The book of a sheet; nothing else of the file is kept. */
static int open_sheet(const char *path, guard_book *book)
{
    struct file file;
    guard_monitor monitor;
    if (!load(path, &file))
        return fail(path);
    guard_answer a = guard_open(book, &monitor, file.bytes, file.length);
    if (a.answer != GUARD_REFUSED)
        return STORED;
    printf("refused %u at byte %u of %s: %s\n", (unsigned)a.refusal, (unsigned)a.place, path, guard_refusal_text(a.refusal));
    return REFUSED;
}

static int store_book(const guard_book *book, const char *path, size_t length)
{
    uint8_t buffer[GUARD_SHEET_BYTES];
    int64_t written = guard_write(book, buffer, length);
    if (written >= 0)
        return save(path, buffer, (size_t)written) ? STORED : fail(path);
    printf("refused %u: %s; %u bytes were lent\n", (unsigned)-written, guard_refusal_text((uint32_t)-written), (unsigned)length);
    return REFUSED;
}

static int compare(const char *path, const char *copy)
{
    struct file one, two;
    if (!load(path, &one))
        return fail(path);
    if (!load(copy, &two))
        return fail(copy);
    if (one.length != two.length || memcmp(one.bytes, two.bytes, one.length) != 0) {
        printf("%s and %s DIFFER\n", path, copy);
        return DIFFER;
    }
    printf("%s has the same %u bytes as %s, version %u\n", copy, (unsigned)two.length, path, two.bytes[3] | (unsigned)two.bytes[4] << 8);
    return STORED;
}

int main(int argc, char **argv)
{
    static guard_book book;
    unsigned long length = GUARD_SHEET_BYTES;
    char *end = NULL;
    if (argc == 4)
        length = strtoul(argv[3], &end, 10);
    if (argc < 3 || argc > 4 || (argc == 4 && (*argv[3] == 0 || *end != 0 || length > GUARD_SHEET_BYTES))) {
        fprintf(stderr, "usage: store SHEET COPY [BYTES], of which there are at most %d\n", GUARD_SHEET_BYTES);
        return COULD_NOT_RUN;
    }
    int status = open_sheet(argv[1], &book);
    if (status == STORED)
        status = store_book(&book, argv[2], (size_t)length);
    if (status == STORED)
        status = compare(argv[1], argv[2]);
    return status;
}
