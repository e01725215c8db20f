/* A sheet's fields, read again for the reader's eyes. The guard has accepted the sheet, or every field before the place that it has refused; what is tested here keeps
 * this program inside the bytes and inside its own arrays. */
#include "explain.h"

struct reader {
    const uint8_t *bytes;
    size_t length, next, place;
    struct field field; /* the one looked at last */
    int ended;          /* at the refused field, or at one that can't be read */
};

uint64_t little_endian(const uint8_t *bytes, size_t size)
{
    uint64_t value = 0;
    for (size_t i = 0; i < size; i++)
        value |= (uint64_t)bytes[i] << 8 * i;
    return value;
}

/* The next field's value, and 0 once reading has ended. */
static uint64_t take(struct reader *r, enum what what, size_t size)
{
    struct field *f = &r->field;
    if (r->ended)
        return 0;
    f->what = what, f->at = r->next, f->size = size, f->left = r->length - r->next;
    f->value = little_endian(r->bytes + r->next, f->left < size ? f->left : size);
    r->ended = f->at == r->place || f->left < size;
    if (r->ended)
        return 0;
    r->next += size;
    return f->value;
}

/* A field of one byte that has a lowest and a highest value. Reading ends at any other one. */
static uint8_t take_within(struct reader *r, enum what what, uint8_t low, uint8_t high)
{
    uint8_t value = (uint8_t)take(r, what, 1);
    r->ended |= value < low || value > high;
    return r->ended ? 0 : value;
}

static void read_range(struct reader *r, struct range *range)
{
    range->name = take_within(r, NAME, 0, NAMES - 1);
    range->u = (uint16_t)take(r, U, 2);
    r->field.u = range->u;
    range->v = (uint16_t)take(r, V, 2);
}

static void read_fragment(struct reader *r, struct fragment *fragment)
{
    fragment->join = take_within(r, JOIN, 0, r->field.version == 1 ? ANY : SHUFFLED + ANY);
    fragment->count = take_within(r, RANGE_COUNT, 1, RANGES);
    for (unsigned i = 0; i < fragment->count && !r->ended; i++) {
        r->field.range = i + 1, r->field.ranges = fragment->count;
        read_range(r, &fragment->ranges[i]);
    }
}

static void read_ordering(struct reader *r, struct fragment *fragments, unsigned count, unsigned in_q)
{
    for (unsigned i = 0; i < count && !r->ended; i++) {
        r->field.in_q = in_q, r->field.fragment = i + 1, r->field.fragments = count;
        read_fragment(r, &fragments[i]);
    }
}

static void read_rule(struct reader *r, struct rule *rule)
{
    rule->kind = take_within(r, KIND, 0, TIMED);
    int timed = rule->kind == TIMED;
    r->field.kind = rule->kind;
    rule->p_count = take_within(r, P_COUNT, 1, FRAGMENTS);
    rule->q_count = timed ? take_within(r, Q_COUNT, 1, FRAGMENTS) : take_within(r, Q_COUNT, 0, 0);
    rule->trigger = take_within(r, TRIGGER, 0, timed ? 0 : NAMES - 1);
    rule->t = (uint32_t)take(r, T, 4);
    read_ordering(r, rule->fragments, rule->p_count, 0);
    read_ordering(r, rule->fragments + rule->p_count, rule->q_count, 1);
}

void read_sheet(struct sheet *sheet, struct bytes file, size_t place)
{
    static const struct sheet nothing;
    struct reader r = {file.at, file.length, 0, place, {MARK, 0, 0, 0, 0, 0, 0, 0, 0, 0, 0, 0, 0, 0}, 0};
    *sheet = nothing;
    take(&r, MARK, 3);
    r.field.version = sheet->version = (unsigned)take(&r, VERSION, 2);
    r.ended |= sheet->version < 1 || sheet->version > VERSIONS;
    sheet->outputs = take(&r, OUTPUTS, 8);
    sheet->count = take_within(&r, RULE_COUNT, 1, RULES);
    for (unsigned i = 0; i < sheet->count && !r.ended; i++) {
        r.field.rule = i;
        read_rule(&r, &sheet->rules[i]);
        sheet->read += !r.ended;
    }
    sheet->complete = !r.ended && r.next == r.length;
    take(&r, LEFT_OVER, 1);
    sheet->last = r.field;
}

int has(uint64_t names, unsigned name)
{
    return name < NAMES && (names >> name & 1) != 0;
}

uint64_t names_of(const struct rule *rule)
{
    uint64_t names = rule->kind == TIMED ? 0 : (uint64_t)1 << rule->trigger;
    for (unsigned i = 0; i < rule->p_count + rule->q_count; i++)
        for (unsigned j = 0; j < rule->fragments[i].count; j++)
            names |= (uint64_t)1 << rule->fragments[i].ranges[j].name;
    return names;
}

uint64_t names_of_sheet(const struct sheet *sheet)
{
    uint64_t names = 0;
    for (unsigned i = 0; i < sheet->read; i++)
        names |= names_of(&sheet->rules[i]);
    return names;
}
