/* Buffers at a page's edge. Each stands between two pages that can't be touched, once so that it ends at the one and once so that it starts right after the other: a read or
 * a write outside ends the program. What the guard only reads can't be written meanwhile. */
#define _DEFAULT_SOURCE
#include "host.h"

#include <signal.h>
#include <sys/mman.h>
#include <sys/wait.h>
#include <unistd.h>

/* ---- memory */

static void need(int right, const char *what)
{
    if (!right) {
        perror(what);
        exit(2);
    }
}

struct pages pages_for(size_t length)
{
    size_t page = (size_t)sysconf(_SC_PAGESIZE), room = (length + page - 1) / page * page;
    uint8_t *all = mmap(NULL, room + 2 * page, PROT_NONE, MAP_PRIVATE | MAP_ANONYMOUS, -1, 0);
    need(all != MAP_FAILED, "mmap");
    struct pages p = {all + page, all + page + room};
    writable(p);
    return p;
}

uint8_t *edge(struct pages p, int at_end, size_t length)
{
    return at_end ? p.end - length : p.start;
}

void read_only(struct pages p)
{
    need(mprotect(p.start, (size_t)(p.end - p.start), PROT_READ) == 0, "mprotect");
}

void writable(struct pages p)
{
    need(mprotect(p.start, (size_t)(p.end - p.start), PROT_READ | PROT_WRITE) == 0, "mprotect");
}

const uint8_t *lend(struct pages p, int at_end, const uint8_t *bytes, size_t length)
{
    uint8_t *place = edge(p, at_end, length);
    writable(p);
    memcpy(place, bytes, length);
    read_only(p);
    return place;
}

uint8_t *forbidden_after(size_t room, size_t beyond)
{
    uint8_t *all = mmap(NULL, room + beyond, PROT_NONE, MAP_PRIVATE | MAP_ANONYMOUS | MAP_NORESERVE, -1, 0);
    need(all != MAP_FAILED && mprotect(all, room, PROT_READ | PROT_WRITE) == 0, "mmap");
    return all + room;
}

/* A child touches the byte; it has to end by a signal. */
static long wrong_touch(volatile uint8_t *byte, int write)
{
    int status;
    fflush(stdout);
    pid_t child = fork();
    need(child >= 0, "fork");
    if (child == 0) {
        signal(SIGSEGV, SIG_DFL);
        if (write)
            *byte = 1;
        else
            (void)*byte;
        _exit(0);
    }
    need(waitpid(child, &status, 0) == child, "waitpid");
    return !WIFSIGNALED(status);
}

/* What the checks below rest on: a touch outside is noticed, and so is a write to what is read only. */
static void check_edges(void)
{
    struct pages p = pages_for(10);
    long wrong = wrong_touch(p.start - 1, 0) + wrong_touch(p.end, 0) + wrong_touch(p.start - 1, 1) + wrong_touch(p.end, 1);
    read_only(p);
    tell("page edges that are noticed", 5, wrong + wrong_touch(p.start, 1));
}

/* ---- the cases at the edges */

static void check_cases_at_edges(void)
{
    struct pages sheets = pages_for(8192), logs = pages_for(65536), outs = pages_for(64), books = pages_for(sizeof(guard_book)), monitors = pages_for(sizeof(guard_monitor));
    long count[2] = {0, 0}, wrong[2] = {0, 0};
    for (size_t i = 0; i < case_count; i++)
        for (int at_end = 0; at_end < 2; at_end++) {
            const struct reference_case *c = &cases[i];
            const uint8_t *sheet = lend(sheets, at_end, c->sheet, c->sheet_length), *log = lend(logs, at_end, c->log, c->log_length);
            size_t out_length = 12 + i % 3;
            guard_book *book = (void *)edge(books, at_end, sizeof *book);
            guard_monitor *monitor = (void *)edge(monitors, at_end, sizeof *monitor);
            writable(books);
            long bad = wrong_by_log(c, sheet, log, edge(outs, at_end, out_length), out_length) + wrong_opened(c, sheet, book, monitor);
            read_only(books);
            if (opens(c))
                bad += wrong_live(c, book, monitor);
            count[at_end]++;
            if (bad)
                wrong[at_end] += differs("a case at a page's edge", (long)i);
        }
    tell("cases whose sheet, log, output, book and monitor start right after a forbidden page", count[0], wrong[0]);
    tell("cases whose sheet, log, output, book and monitor end at a forbidden page", count[1], wrong[1]);
}

/* Outputs that are too short, at the edge. */
static void check_short_outputs(void)
{
    struct pages outs = pages_for(64);
    long count = 0, wrong = 0;
    for (size_t length = 0; length < 12; length++)
        for (int at_end = 0; at_end < 2; at_end++, count++)
            wrong += guard_run(sheet_t, T_BYTES, NULL, 0, ALL, edge(outs, at_end, length), length) != 15;
    tell("short outputs at a page's edge", count, wrong);
}

/* ---- the library's own calls: the book's array and the monitor's at an edge, and what a call only reads can't be written */

struct lent {
    struct pages books, monitors;
    uint64_t *book;
    uint8_t *monitor;
};

static struct lent lent_at(int at_end)
{
    struct lent l = {pages_for(sizeof(guard_book)), pages_for(sizeof(guard_monitor)), NULL, NULL};
    l.book = (void *)edge(l.books, at_end, sizeof(guard_book));
    l.monitor = edge(l.monitors, at_end, sizeof(guard_monitor));
    return l;
}

static guard_answer observe_lent(const struct lent *l, struct observation o)
{
    return guard_answer_of(o.clock ? guard4_clock(l->book, l->monitor, o.time) : guard4_event(l->book, l->monitor, o.name, o.time));
}

static long wrong_lent(const struct reference_case *c, const struct lent *l)
{
    writable(l->books);
    guard_answer opened = guard_answer_of(guard4_open(c->sheet, c->sheet_length, l->book, l->monitor));
    long wrong = !same_answer(opened, c->opened);
    if (!opens(c))
        return wrong;
    read_only(l->books);
    guard4_start(l->monitor);
    for (size_t i = 0; c->before == 0 && i < c->count; i++)
        wrong += !same_answer(observe_lent(l, observation_of(c, i)), observation_of(c, i).due);
    read_only(l->monitors);
    wrong += c->before == 0 && (!same_answer(guard_answer_of(guard4_verdict(l->monitor)), c->verdict) || guard4_taken(l->monitor) != c->taken);
    writable(l->monitors);
    return wrong;
}

static void check_lent_at_edges(void)
{
    long count = 0, wrong = 0;
    for (int at_end = 0; at_end < 2; at_end++) {
        struct lent l = lent_at(at_end);
        for (size_t i = 0; i < case_count; i++, count++)
            if (wrong_lent(&cases[i], &l))
                wrong += differs("a case by the library's own calls at a page's edge", (long)i);
    }
    tell("cases by the library's own calls, book and monitor at either edge of a page", count, wrong);
}

/* ---- what a run does not look at */

/* "It looks at no record after such a stop or after the budget": the records that it looks at stand at a page's end, and the log goes on in pages that can't be read. "above
 * 4,294,967,295 bytes" is found "before any record". */
static void check_unread(void)
{
    const size_t most = ALL, room = 65536;
    uint8_t *unread = forbidden_after(room, most + 4096), out[12];
    long count = 0, wrong = 0;
    for (size_t i = 0; i < case_count; i++) {
        const struct reference_case *c = &cases[i];
        int refused = c->due[0] == GUARD_REFUSED, stopped = refused || c->due[0] == GUARD_BROKEN;
        uint32_t taken = four_bytes(c->due + 4);
        size_t length = 5 * ((size_t)taken + (size_t)refused);
        if (!opens(c) || c->due[1] == GUARD_LOG_LENGTH)
            continue;
        memcpy(unread - length, c->log, length);
        count++;
        if (guard_run(c->sheet, c->sheet_length, unread - length, most - most % 5, stopped ? ALL : taken, out, 12) != 0 || memcmp(out, c->due, 12) != 0)
            wrong += differs("a case's records looked at", (long)i);
    }
    tell("logs of 4,294,967,295 bytes, no record read after the stop or the budget", count, wrong);
    wrong = 0;
    for (size_t length = most + 1; length <= most + 5; length++)
        wrong += guard_run(sheet_t, T_BYTES, unread, length, ALL, out, 12) != 0 || memcmp(out, (const uint8_t[12]){3, 14}, 12) != 0;
    tell("longer logs, 14 and no record read", 5, wrong);
    munmap(unread - room, room + most + 4096);
}

void check_pages(void)
{
    check_edges();
    check_cases_at_edges();
    check_short_outputs();
    check_lent_at_edges();
    check_unread();
}
