/* explain: what a sheet says, and what a log under it comes to, in plain words. The verdict is guard_run's. What a rule would have taken, and until when, is asked of the
 * proved guard too, on copies of a monitor (ask.c): this program knows the layout of a sheet and nothing of its meaning.
 *
 *     cc -std=c99 -I include -o explain tools/explain/[a-z]*.c target/libguard.a
 */
#include "explain.h"

#include <stdio.h>
#include <stdlib.h>
#include <string.h>

static const char usage[] = "explain SHEET LOG [NAMES]\n"
                            "explain --help\n";

static const char help[] = "\n"
                           "Prints the rules of an order sheet and what a log under it comes to: whole, open, broken or refused.\n"
                           "  refused  the number and what it means; the sheet's field, what is found there and what is due; or the record\n"
                           "  broken   each broken rule, whether it was late or out of order, and which names it would have taken\n"
                           "  open     for each open rule the names that it waits for, and until when\n"
                           "\n"
                           "SHEET  the bytes of an order sheet\n"
                           "LOG    records of 5 bytes: a name 0 to 63, or 255 for a clock reading, then the time in milliseconds\n"
                           "NAMES  a text file with words for the names: lines like 'in 3 recalc' and 'out 5 finish'; other lines are passed over\n"
                           "\n"
                           "  once P << i       P before the first i\n"
                           "  each P << i       P before each i\n"
                           "  within T P => Q   after each P a Q, its last event at most T milliseconds after P's last\n"
                           "  all{a, b} < any{c, d} < e   first a and b in any order, then c or d or both, then e\n"
                           "  a  a+  a[2,9]  a[2,]        once, 1 to 65535 times in a row, 2 to 9 times, 2 times or more\n"
                           "  all{a, b[2,9]} shuffled     an a and 2 to 9 b, mixed in any way; likewise any{..} shuffled\n"
                           "\n"
                           "Exit status: 0 whole or open, 1 broken, 2 refused, 3 could not run.\n";

/* ---- files */

static int complain(const char *path, const char *why)
{
    fprintf(stderr, "explain: %s: %s\n", path, why);
    return 0;
}

#define FIRST_ROOM 65536
#define MOST_BYTES (UINT32_MAX + (uint64_t)1) /* one more than a log may have, which is enough to see that */

/* Reads on until the file ends, with twice the room when it is used up. NULL, or what went wrong. */
static const char *read_on(FILE *file, struct bytes *bytes)
{
    size_t room = 0;
    do {
        room = room > 0 ? 2 * room : FIRST_ROOM;
        uint8_t *larger = realloc(bytes->at, room);
        if (larger == NULL)
            return "there is no memory for it";
        bytes->at = larger;
        bytes->length += fread(bytes->at + bytes->length, 1, room - bytes->length, file);
    } while (bytes->length == room && room < MOST_BYTES);
    return ferror(file) ? "it can't be read" : NULL;
}

/* Gives back the room that is left: a byte read past the end is then past the memory too, where a checker sees it. */
static void fit(struct bytes *bytes)
{
    uint8_t *smaller = realloc(bytes->at, bytes->length > 0 ? bytes->length : 1);
    if (smaller != NULL)
        bytes->at = smaller;
}

static int load(const char *path, struct bytes *bytes)
{
    FILE *file = fopen(path, "rb");
    if (file == NULL)
        return complain(path, "it can't be opened");
    const char *wrong = read_on(file, bytes);
    fclose(file);
    fit(bytes);
    return wrong != NULL ? complain(path, wrong) : 1;
}

static int load_names(const char *path, struct names *names)
{
    static struct bytes file; /* the words point into it */
    size_t line;
    if (!load(path, &file))
        return 0;
    const char *wrong = read_names(names, file, &line);
    if (wrong != NULL)
        fprintf(stderr, "explain: %s, line %zu: %s\n", path, line, wrong);
    return wrong == NULL;
}

/* ---- the program */

/* Sheet, log and names. What is read stays until the program ends. */
static int load_all(struct desk *d, int count, char **paths)
{
    return load(paths[0], &d->book) && load(paths[1], &d->log) && (count < 3 || load_names(paths[2], &d->names));
}

/* A status says something only if everything before it was printed. */
static int ended(enum status status)
{
    if (fflush(stdout) == 0 && !ferror(stdout))
        return (int)status;
    fprintf(stderr, "explain: the output can't be written\n");
    return COULD_NOT_RUN;
}

int main(int argc, char **argv)
{
    static struct desk desk;
    if (argc == 2 && strcmp(argv[1], "--help") == 0) {
        printf("%s%s", usage, help);
        return ended(WHOLE_OR_OPEN);
    }
    if (argc != 3 && argc != 4) {
        fprintf(stderr, "%s", usage);
        return COULD_NOT_RUN;
    }
    if (!load_all(&desk, argc - 1, argv + 1))
        return COULD_NOT_RUN;
    return ended(explain(&desk));
}
