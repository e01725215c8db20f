/* Questions to the guard itself: each is put to a copy of the monitor, so that the monitor stays as it is. Nothing here knows what a rule means. */
#include "explain.h"

struct record record_of(struct bytes log, size_t index)
{
    const uint8_t *bytes = log.at + GUARD_RECORD_BYTES * index;
    struct record record = {bytes[0], (uint32_t)little_endian(bytes + 1, 4)};
    return record;
}

static guard_answer observe(const guard_book *book, guard_monitor *monitor, struct record record)
{
    return record.name == CLOCK ? guard_clock(book, monitor, record.time) : guard_event(book, monitor, record.name, record.time);
}

uint32_t latest_time(struct bytes log, size_t records)
{
    return records > 0 ? record_of(log, records - 1).time : 0;
}

void replay(struct state *state, struct bytes log, size_t records, uint64_t own)
{
    while (records > 0 && !has(own, record_of(log, records - 1).name))
        records--;
    guard_start(&state->monitor);
    for (size_t i = 0; i < records; i++)
        observe(&state->book, &state->monitor, record_of(log, i));
    state->latest = latest_time(log, records);
}

int keeps(const struct state *state, unsigned rule, struct record record)
{
    guard_monitor copy = state->monitor;
    guard_answer a = observe(&state->book, &copy, record);
    return a.answer != GUARD_BROKEN || (a.mask >> rule & 1) == 0;
}

/* Time only takes continuations away: an observation that breaks a rule at one time breaks it at every later one. So the range of times is halved, and 32 questions do.
 */
uint32_t last_kept(const struct state *state, unsigned rule, unsigned name, uint32_t until)
{
    struct record record = {name, until};
    if (keeps(state, rule, record))
        return until;
    uint32_t kept = state->latest, broken = until;
    while (broken - kept > 1) {
        record.time = kept + (broken - kept) / 2;
        if (keeps(state, rule, record))
            kept = record.time;
        else
            broken = record.time;
    }
    return kept;
}
