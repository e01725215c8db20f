/* Sheets, rules and fields in words. The notation of rules is that of examples/intercom. */
#include "explain.h"

#include <inttypes.h>
#include <stdio.h>

void print_name(const struct names *names, unsigned name)
{
    if (has(names->given, name))
        printf("%.*s", names->words[name].length, names->words[name].at);
    else
        printf("%u", name);
}

void print_record(const struct names *names, struct record record)
{
    if (record.name == CLOCK)
        printf("a clock reading");
    else
        print_name(names, record.name);
    printf(" at %" PRIu32, record.time);
}

/* ---- rules */

/* a, a+ for 1 to 65535 times, a[u,v], a[u,] for u times or more */
static void print_range(const struct names *names, const struct range *range)
{
    print_name(names, range->name);
    if (range->u == 1 && range->v == UINT16_MAX)
        printf("+");
    else if (range->v == NO_UPPER_END)
        printf("[%u,]", (unsigned)range->u);
    else if (range->u != 1 || range->v != 1)
        printf("[%u,%u]", (unsigned)range->u, (unsigned)range->v);
}

/* A range alone that is joined all has no braces. Joined otherwise it means the same, and has them since the sheet's byte is another. */
static void print_fragment(const struct names *names, const struct fragment *fragment)
{
    int alone = fragment->join == 0 && fragment->count == 1;
    printf("%s", alone ? "" : fragment->join & ANY ? "any{" : "all{");
    for (unsigned i = 0; i < fragment->count; i++) {
        printf("%s", i > 0 ? ", " : "");
        print_range(names, &fragment->ranges[i]);
    }
    printf("%s%s", alone ? "" : "}", fragment->join & SHUFFLED ? " shuffled" : "");
}

static void print_ordering(const struct names *names, const struct fragment *fragments, unsigned count)
{
    for (unsigned i = 0; i < count; i++) {
        printf("%s", i > 0 ? " < " : "");
        print_fragment(names, &fragments[i]);
    }
}

void print_rule(const struct names *names, const struct sheet *sheet, unsigned rule)
{
    const struct rule *r = &sheet->rules[rule];
    printf("rule %u  %s ", rule, r->kind == 0 ? "once" : r->kind == 1 ? "each" : "within");
    if (r->kind == TIMED)
        printf("%" PRIu32 " ", r->t);
    print_ordering(names, r->fragments, r->p_count);
    printf("%s", r->kind == TIMED ? " => " : " << ");
    if (r->kind == TIMED)
        print_ordering(names, r->fragments + r->p_count, r->q_count);
    else
        print_name(names, r->trigger);
    printf("\n");
}

static void print_set(const char *what, const struct names *names, uint64_t set)
{
    const char *before = " ";
    printf("%s:", what);
    for (unsigned i = 0; i < NAMES; i++)
        if (has(set, i)) {
            printf("%s", before);
            print_name(names, i);
            before = ", ";
        }
    printf("%s\n", set == 0 ? " none" : "");
}

/* The directions are the sheet's. Where the file of names has another one, that is said. */
static void print_directions(const struct names *names, const struct sheet *sheet)
{
    uint64_t other = names->given & (names->outputs ^ sheet->outputs), used = names_of_sheet(sheet);
    print_set("inputs", names, used & ~sheet->outputs);
    print_set("outputs", names, used & sheet->outputs);
    if (other != 0)
        print_set("of the other direction in the file of names", names, other);
}

static int has_join(const struct sheet *sheet, unsigned join)
{
    for (unsigned i = 0; i < sheet->read; i++)
        for (unsigned j = 0; j < sheet->rules[i].p_count + sheet->rules[i].q_count; j++)
            if (sheet->rules[i].fragments[j].join == join)
                return 1;
    return 0;
}

/* The names of a fragment's ranges that have no upper end, the first of them behind `before` and the others behind `between`; with how often each comes, where that is asked. Gives what
 * stands before one more. */
static const char *print_endless(const struct names *names, const struct fragment *fragment, const char *before, const char *between, int with_u)
{
    for (unsigned i = 0; i < fragment->count; i++)
        if (fragment->ranges[i].v == NO_UPPER_END) {
            printf("%s", before);
            print_name(names, fragment->ranges[i].name);
            if (with_u)
                printf(", %u or more", (unsigned)fragment->ranges[i].u);
            before = between;
        }
    return before;
}

static int has_endless(const struct fragment *fragments, unsigned count)
{
    for (unsigned i = 0; i < count; i++)
        for (unsigned j = 0; j < fragments[i].count; j++)
            if (fragments[i].ranges[j].v == NO_UPPER_END)
                return 1;
    return 0;
}

/* What a rule has without an upper end, in words; and, if its P may end in such a range, what comes of it. */
static void print_no_upper_end(const struct names *names, const struct sheet *sheet, unsigned rule)
{
    const struct rule *r = &sheet->rules[rule];
    const struct fragment *last = &r->fragments[r->p_count - 1];
    const char *before = " ";
    if (!has_endless(r->fragments, r->p_count + r->q_count))
        return;
    printf("no upper end in rule %u:", rule);
    for (unsigned i = 0; i < r->p_count + r->q_count; i++)
        before = print_endless(names, &r->fragments[i], before, "; ", 1);
    printf("\n");
    if (r->kind == TIMED && has_endless(last, 1)) {
        printf("deadline of rule %u: held off while P can grow by", rule);
        print_endless(names, last, " ", " or ", 0);
        printf("\n");
    }
}

void print_sheet(const struct names *names, const struct sheet *sheet)
{
    if (sheet->read == 0)
        return;
    printf("version: %u\n", sheet->version);
    print_directions(names, sheet);
    for (unsigned i = 0; i < sheet->read; i++)
        print_rule(names, sheet, i);
    if (has_join(sheet, SHUFFLED))
        printf("all{..} shuffled: every name, mixed in any way; its bounds are for how often it comes in all\n");
    if (has_join(sheet, SHUFFLED + ANY))
        printf("any{..} shuffled: at least one name, mixed in any way; the bounds of each that comes are for how often it comes in all\n");
    for (unsigned i = 0; i < sheet->read; i++)
        print_no_upper_end(names, sheet, i);
}

/* ---- fields */

static void print_where(const struct field *f)
{
    static const char *const fields[] = {"mark",        "version", "outputs", "rule count", "after the last rule", "kind", "P count", "Q count", "trigger", "t", "join",
                                         "range count", "name",    "u",       "v"};
    if (f->what >= KIND)
        printf("rule %u, ", f->rule);
    if (f->what >= JOIN)
        printf("fragment %u of %u in %s, ", f->fragment, f->fragments, f->in_q ? "Q" : "P");
    if (f->what >= NAME)
        printf("range %u of %u, ", f->range, f->ranges);
    printf("%s: ", fields[f->what]);
}

static void print_value(const struct names *names, const struct field *f)
{
    if (f->what == MARK)
        printf("%02X %02X %02X", (unsigned)f->value & 255, (unsigned)(f->value >> 8) & 255, (unsigned)(f->value >> 16) & 255);
    else
        printf("%" PRIu64, f->value);
    if ((f->what == NAME || f->what == TRIGGER) && f->value < NAMES && has(names->given, (unsigned)f->value)) {
        printf(" ");
        print_name(names, (unsigned)f->value);
    }
}

/* What such a field may hold; a bound v has its u as the lowest. */
static const char *due(const struct field *f)
{
    int timed = f->kind == TIMED;
    switch (f->what) {
    case MARK:
        return "4C 4F 42";
    case VERSION:
        return "1 or 2";
    case RULE_COUNT:
        return "1 to 16";
    case KIND:
        return "0, 1 or 2";
    case Q_COUNT:
        return timed ? "1 to 8" : "0 in kinds 0 and 1";
    case TRIGGER:
        return timed ? "0 in kind 2" : "an input, 0 to 63";
    case T:
        return timed ? "any number" : "0 in kinds 0 and 1";
    case JOIN:
        return f->version == 1 ? "0 or 1 in version 1; 2 and 3, shuffled, are of version 2" : "0 to 3 in version 2";
    case P_COUNT:
    case RANGE_COUNT:
        return "1 to 8";
    case NAME:
        return f->in_q ? "an output, 0 to 63, that the rule does not have yet" : "0 to 63, and not in the rule yet";
    case U:
        return "1 to 65535";
    case V:
        return f->version == 1 ? "from u to 65535" : "0, which is no upper end, or from u to 65535";
    default:
        return "any number";
    }
}

void print_field(const struct names *names, const struct field *f)
{
    printf("  ");
    print_where(f);
    if (f->what == LEFT_OVER)
        printf("found %zu more, the first is %u; due none", f->left, (unsigned)f->value);
    else if (f->left < f->size)
        printf("found %zu of its %zu bytes", f->left, f->size);
    else {
        printf("found ");
        print_value(names, f);
        printf("; due %s", due(f));
    }
    if (f->what == V && f->left >= f->size)
        printf(", u is %u%s", f->u, f->version == 1 ? "; 0, no upper end, is of version 2" : "");
    printf("\n");
}
