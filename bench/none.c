/* A call that does nothing: what the host's own loop and its call cost. */
#include "contestants.h"

uint64_t none_event(const none_book *book, none_monitor *m, uint32_t name, uint32_t time)
{
    (void)book, (void)m, (void)name, (void)time;
    return 0;
}

uint64_t none_clock(const none_book *book, none_monitor *m, uint32_t time)
{
    (void)book, (void)m, (void)time;
    return 0;
}
