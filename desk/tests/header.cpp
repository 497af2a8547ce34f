// The header in a C++ program: every call is found in the archive under its C name.
#include "jobboard.h"

#include <cstdio>
#include <vector>

#if JOBBOARD_VERSION != 5
#error "these calls are those of version 5"
#endif

int main()
{
    std::vector<uint8_t> table(JOBBOARD_TABLE_BYTES(2, 3)), list(JOBBOARD_MOST_LIST_BYTES), page(JOBBOARD_MOST_PAGE_BYTES);
    uint32_t a = 0, b = 0, c = 0;
    bool good = jobboard_blank(table.data(), table.size(), 2, 3) == JOBBOARD_OK;
    good = good && jobboard_check(table.data(), table.size()) == JOBBOARD_OK;
    good = good && jobboard_arrival(table.data(), table.size(), 1, 1, 2, list.data(), list.size(), &a, &b, &c) == JOBBOARD_OK;
    good = good && a == 1 && b == 1 && c == 0;
    good = good && jobboard_load(table.data(), table.size(), 1, &a) == JOBBOARD_OK && a == 1;
    good = good && jobboard_heaviest(table.data(), table.size(), &a) == JOBBOARD_OK && a == 1;
    good = good && jobboard_tight_set(table.data(), table.size(), 1, list.data(), list.size(), &a, &b) == JOBBOARD_OK && a == 2 && b == 1;
    good = good && jobboard_between(table.data(), table.size(), 2, 1, &a, &b) == JOBBOARD_OK && a == 1 && b == 1;
    good = good && jobboard_sheet(table.data(), table.size(), page.data(), page.size(), &a) == JOBBOARD_OK && a == 2 * JOBBOARD_SHEET_LINE_BYTES;
    good = good && jobboard_level_check(table.data(), table.size(), &a) == JOBBOARD_OK && a == 1;
    good = good && jobboard_levelling(table.data(), table.size(), 0, &a, &b) == JOBBOARD_OK && a == 0 && b == 1;
    good = good && jobboard_closing(table.data(), table.size(), 1, list.data(), list.size(), &a, &b) == JOBBOARD_OK && a == 1 && b == 0;
    good = good && jobboard_closing(table.data(), table.size(), 1, list.data(), list.size(), &a, &b) == JOBBOARD_NOT_STANDING;
    std::puts(good ? "header: as C99 and as C++, the eleven calls from C++" : "FAILED: header: a call from C++ gives another answer");
    return good ? 0 : 1;
}
