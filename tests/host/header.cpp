// include/guard.h from C++: its sizes, its calls, a session of rule R, document 01's printed case, its book written back, a round of it played, and a session of a range without an upper end.
#include "../../include/guard.h"

#include <cstdio>
#include <cstring>

static_assert(sizeof(guard_book) == 8 * GUARD_BOOK_WORDS && sizeof(guard_monitor) == GUARD_MONITOR_BYTES && sizeof(guard_answer) == 8, "the sizes that guard.h gives");

int main()
{
    const uint8_t sheet[34] = {0x4C, 0x4F, 0x42, 1, 0, 0, 0, 0, 0, 0, 0, 0, 0, 1, 1, 1, 0, 2, 0, 0, 0, 0, 0, 2, 0, 1, 0, 1, 0, 1, 1, 0, 1, 0};
    static guard_book book;
    guard_monitor monitor;
    int wrong = guard_open(&book, &monitor, sheet, sizeof sheet).answer != GUARD_WHOLE;
    wrong += guard_event(&book, &monitor, 1, 5).answer != GUARD_OPEN;
    wrong += guard_event(&book, &monitor, 0, 5).mask != 1;
    wrong += guard_event(&book, &monitor, 2, 4).refusal != GUARD_TIME_FALLS;
    wrong += guard_event(&book, &monitor, 2, 9).answer != GUARD_WHOLE;
    wrong += guard_clock(&book, &monitor, 10).answer != GUARD_WHOLE;
    wrong += guard_event(&book, &monitor, 2, 10).place != 5;
    wrong += guard_verdict(&monitor).answer != GUARD_BROKEN || guard_taken(&monitor) != 5;
    guard_start(&monitor);
    wrong += guard_taken(&monitor) != 0;
    uint8_t out[GUARD_OUTPUT_BYTES];
    wrong += guard_run(sheet, sizeof sheet, nullptr, 0, 1, out, sizeof out) != 0 || out[0] != GUARD_WHOLE;
    wrong += std::strstr(guard_refusal_text(GUARD_MARK), "mark") == nullptr || std::strcmp(guard_refusal_text(19), "unknown refusal") != 0;
    wrong += guard_library_version() != GUARD_LIBRARY_VERSION || guard_sheet_version() != GUARD_SHEET_VERSION;
    uint8_t stored[sizeof sheet];
    wrong += guard_write(&book, stored, sizeof stored - 1) != -GUARD_BUFFER;
    wrong += guard_write(&book, stored, sizeof stored) != 34 || std::memcmp(stored, sheet, sizeof sheet) != 0;
    // 2 is the second range of R: 1 comes first, then 0 is needed, and the trigger; all at 515
    const uint8_t choice[1] = {2}, round[16] = {1, 3, 2, 0, 0, 0, 3, 2, 0, 0, 2, 3, 2, 0, 0, 0xA5};
    uint8_t played[sizeof round];
    std::memset(played, 0xA5, sizeof played);
    wrong += guard_play(&book, 1, 515, choice, sizeof choice, played, 0) != -GUARD_RULE;
    wrong += guard_play(&book, 0, 515, choice, sizeof choice, played, 14) != -GUARD_ROUND || played[0] != 0xA5;
    wrong += guard_play(&book, 0, 515, choice, sizeof choice, played, sizeof played) != 3 || std::memcmp(played, round, sizeof round) != 0;
    // kind 1, 0[3,0] before 2, in version 2: 65,537 and the trigger
    const uint8_t endless[29] = {0x4C, 0x4F, 0x42, 2, 0, 0, 0, 0, 0, 0, 0, 0, 0, 1, 1, 1, 0, 2, 0, 0, 0, 0, 0, 1, 0, 3, 0, 0, 0};
    wrong += guard_open(&book, &monitor, endless, sizeof endless).answer != GUARD_WHOLE;
    for (int i = 0; i < 65537; i++)
        wrong += guard_event(&book, &monitor, 0, 0).answer != GUARD_OPEN;
    wrong += guard_event(&book, &monitor, 2, 0).answer != GUARD_WHOLE;
    std::printf("guard.h from C++: %s\n", wrong ? "NOT AS DUE" : "20 as due");
    return wrong != 0;
}
