/* The cases of cases.py: the call over the log, the session's list, and the log record by record as a session, which has to agree with the call. */
#include "host.h"

struct reference_case *cases;
size_t case_count;

/* ---- reading a file */

const uint8_t *file_bytes(const char *path, size_t *length)
{
    static uint8_t *kept[3];
    static int count;
    FILE *file = fopen(path, "rb");
    long size = 0;
    uint8_t *bytes = NULL;
    if (file && fseek(file, 0, SEEK_END) == 0 && (size = ftell(file)) > 0 && fseek(file, 0, SEEK_SET) == 0)
        bytes = malloc((size_t)size);
    if (!bytes || count == sizeof kept / sizeof *kept || fread(bytes, 1, (size_t)size, file) != (size_t)size) {
        fprintf(stderr, "%s can't be read\n", path);
        exit(2);
    }
    fclose(file);
    *length = (size_t)size;
    return kept[count++] = bytes;
}

static const uint8_t *at, *end;

void begin_file(const char *path)
{
    size_t length;
    at = file_bytes(path, &length), end = at + length;
}

const uint8_t *take(size_t n)
{
    const uint8_t *taken = at;
    if ((size_t)(end - at) < n) {
        fprintf(stderr, "a file of cases is cut off\n");
        exit(2);
    }
    at += n;
    return taken;
}

uint32_t take_four(void)
{
    return four_bytes(take(4));
}

size_t take_two(void)
{
    const uint8_t *b = take(2);
    return b[0] | (size_t)b[1] << 8;
}

int file_ended(void)
{
    return at == end;
}

static guard_answer take_answer(void)
{
    const uint8_t *b = take(8);
    return answer(b[0], b[1], (uint16_t)(b[2] | b[3] << 8), four_bytes(b + 4));
}

#define OBSERVATION_BYTES 17

static void take_case(struct reference_case *c)
{
    c->before = take_four();
    c->sheet_length = take_two();
    c->sheet = take(c->sheet_length);
    c->log_length = take_two();
    c->log = take(c->log_length);
    c->budget = take_four();
    c->due = take(12);
    c->opened = take_answer();
    c->count = take_two();
    c->list = take(c->count * OBSERVATION_BYTES);
    c->verdict = take_answer();
    c->taken = take_four();
}

struct observation observation_of(const struct reference_case *c, size_t i)
{
    const uint8_t *b = c->list + i * OBSERVATION_BYTES;
    struct observation o = {b[0], four_bytes(b + 1), four_bytes(b + 5), answer(b[9], b[10], (uint16_t)(b[11] | b[12] << 8), four_bytes(b + 13))};
    return o;
}

/* The cases point into the file's bytes. */
void read_cases(const char *path)
{
    begin_file(path);
    case_count = take_four();
    cases = calloc(case_count, sizeof *cases);
    for (size_t i = 0; i < case_count; i++)
        take_case(&cases[i]);
}

/* ---- one case */

int opens(const struct reference_case *c)
{
    return c->opened.answer != GUARD_REFUSED;
}

long wrong_by_log(const struct reference_case *c, const uint8_t *sheet, const uint8_t *log, uint8_t *out, size_t out_length)
{
    memset(out, 0xA5, out_length);
    long wrong = guard_run(sheet, c->sheet_length, log, c->log_length, c->budget, out, out_length) != 0 || memcmp(out, c->due, 12) != 0;
    for (size_t i = 12; i < out_length; i++)
        wrong |= out[i] != 0xA5;
    return wrong;
}

/* "A refused sheet gives no monitor": book and monitor keep every byte, whatever stood there. */
long wrong_opened(const struct reference_case *c, const uint8_t *sheet, guard_book *book, guard_monitor *monitor)
{
    static guard_book old_book;
    guard_monitor old_monitor;
    scramble(book, sizeof *book), old_book = *book;
    scramble(monitor, sizeof *monitor), old_monitor = *monitor;
    if (!same_answer(guard_open(book, monitor, sheet, c->sheet_length), c->opened))
        return 1;
    if (opens(c))
        return guard_taken(monitor) != 0 || !same_answer(guard_verdict(monitor), answer(GUARD_WHOLE, 0, 0, 0));
    return memcmp(book, &old_book, sizeof old_book) != 0 || memcmp(monitor, &old_monitor, sizeof old_monitor) != 0;
}

/* Each answer of the list is the judge's, and so are the verdict and the taken count after each; a refused observation leaves every byte of the monitor. */
long wrong_live(const struct reference_case *c, const guard_book *book, guard_monitor *monitor)
{
    long wrong = 0;
    guard_answer held = answer(GUARD_WHOLE, 0, 0, 0);
    uint32_t taken = c->before;
    if (c->before)
        set_taken(monitor, c->before);
    for (size_t i = 0; i < c->count; i++) {
        struct observation o = observation_of(c, i);
        guard_monitor old = *monitor;
        guard_answer a = observe(book, monitor, o);
        if (o.due.answer != GUARD_REFUSED)
            taken += held.answer != GUARD_BROKEN, held = o.due;
        wrong += !same_answer(a, o.due) || !same_answer(guard_verdict(monitor), held) || guard_taken(monitor) != taken ||
                 (a.answer == GUARD_REFUSED && memcmp(&old, monitor, sizeof old) != 0);
    }
    return wrong + (!same_answer(guard_verdict(monitor), c->verdict) || guard_taken(monitor) != c->taken);
}

/* The log as a host would run it through a session, up to its stop or its budget: the twelve bytes that the call gives. */
static void run_by_session(const struct reference_case *c, const guard_book *book, guard_monitor *monitor, uint8_t out[12])
{
    guard_answer a = guard_verdict(monitor);
    uint32_t place = 0;
    for (size_t r = 0; 5 * r < c->log_length && guard_taken(monitor) < c->budget && a.answer != GUARD_BROKEN && a.answer != GUARD_REFUSED; r++) {
        const uint8_t *record = c->log + 5 * r;
        struct observation o = {record[0] == 0xFF, record[0], four_bytes(record + 1), answer(0, 0, 0, 0)};
        a = observe(book, monitor, o);
        place = a.answer == GUARD_REFUSED ? (uint32_t)(5 * r) : a.place;
    }
    uint16_t mask = guard_verdict(monitor).mask;
    uint32_t taken = guard_taken(monitor);
    out[0] = a.answer, out[1] = a.refusal, out[2] = (uint8_t)mask, out[3] = (uint8_t)(mask >> 8);
    for (int b = 0; b < 4; b++)
        out[4 + b] = (uint8_t)(taken >> 8 * b), out[8 + b] = (uint8_t)(place >> 8 * b);
}

/* ---- all of them */

struct tally {
    long by_log, opened, refused, lists, answers, runs;
    long wrong_by_log, wrong_opened, wrong_refused, wrong_lists, wrong_answers, wrong_runs;
};

static void check_live(long number, const struct reference_case *c, const guard_book *book, guard_monitor *monitor, struct tally *n)
{
    long wrong = wrong_live(c, book, monitor);
    n->lists++, n->answers += (long)c->count, n->wrong_answers += wrong;
    if (wrong)
        n->wrong_lists += differs("a case live", number);
    guard_start(monitor);
    if (c->log_length % 5 == 0) {
        uint8_t out[12];
        n->runs++;
        run_by_session(c, book, monitor, out);
        if (memcmp(out, c->due, 12) != 0)
            n->wrong_runs += differs("a case's log through a session", number);
    }
}

static void check_case(long number, const struct reference_case *c, struct tally *n)
{
    static guard_book book;
    guard_monitor monitor;
    uint8_t out[24];
    n->by_log++;
    if (wrong_by_log(c, c->sheet, c->log, out, 12 + (size_t)number % 13))
        n->wrong_by_log += differs("a case by log", number);
    long wrong = wrong_opened(c, c->sheet, &book, &monitor);
    if (wrong)
        differs("opening a case's sheet", number);
    if (!opens(c)) {
        n->refused++, n->wrong_refused += wrong;
        return;
    }
    n->opened++, n->wrong_opened += wrong;
    check_live(number, c, &book, &monitor, n);
}

void check_cases(void)
{
    struct tally n;
    memset(&n, 0, sizeof n);
    for (size_t i = 0; i < case_count; i++)
        check_case((long)i, &cases[i], &n);
    tell("cases of the reference by log", n.by_log, n.wrong_by_log);
    tell("cases of the reference, sheets opened", n.opened, n.wrong_opened);
    tell("cases of the reference, sheets refused, book and monitor as they were", n.refused, n.wrong_refused);
    tell("cases of the reference live, lists", n.lists, n.wrong_lists);
    tell("cases of the reference live, answers", n.answers, n.wrong_answers);
    tell("cases of the reference, the log through a session as by the call", n.runs, n.wrong_runs);
}
