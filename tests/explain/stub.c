/* A library that answers what GUARD_STUB says, five numbers: answers that no log gets from the real one, such as refusal 13, and those of a later version. It accepts
 * every sheet, and its monitors see nothing. */
#include "../../include/guard.h"

#include <stdio.h>
#include <stdlib.h>

uint32_t guard4_run(const uint8_t *sheet, size_t sheet_length, const uint8_t *log, size_t log_length, uint32_t budget, uint8_t *out, size_t out_length)
{
    unsigned answer, refusal, mask, taken, place;
    const char *says = getenv("GUARD_STUB");
    (void)sheet, (void)sheet_length, (void)log, (void)log_length, (void)budget;
    if (says == NULL || sscanf(says, "%u %u %u %u %u", &answer, &refusal, &mask, &taken, &place) != 5 || out_length < GUARD_OUTPUT_BYTES)
        abort();
    out[0] = (uint8_t)answer, out[1] = (uint8_t)refusal, out[2] = (uint8_t)mask, out[3] = (uint8_t)(mask >> 8);
    for (int i = 0; i < 4; i++)
        out[4 + i] = (uint8_t)(taken >> 8 * i), out[8 + i] = (uint8_t)(place >> 8 * i);
    return 0;
}

uint64_t guard4_open(const uint8_t *sheet, size_t sheet_length, uint64_t *book, uint8_t *monitor)
{
    (void)sheet, (void)sheet_length, (void)book, (void)monitor;
    return GUARD_WHOLE;
}

void guard4_start(uint8_t *monitor)
{
    (void)monitor;
}

uint64_t guard4_event(const uint64_t *book, uint8_t *monitor, uint32_t name, uint32_t time)
{
    (void)book, (void)monitor, (void)name, (void)time;
    return GUARD_WHOLE;
}

uint64_t guard4_clock(const uint64_t *book, uint8_t *monitor, uint32_t time)
{
    (void)book, (void)monitor, (void)time;
    return GUARD_WHOLE;
}

uint64_t guard4_verdict(const uint8_t *monitor)
{
    (void)monitor;
    return GUARD_WHOLE;
}

uint32_t guard4_taken(const uint8_t *monitor)
{
    (void)monitor;
    return 0;
}
