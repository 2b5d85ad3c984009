// The header in a translation unit of C++, once and again, and calls through it.
#include "lohitunga.h"
#include "lohitunga.h"
#include "lohitunga_text.h"
#include <cstdio>

int main()
{
    const uint8_t tdt[] = {LOHITUNGA_TABLE_TDT, 0x70, 0x05, 0xC0, 0x79, 0x12, 0x45, 0x00};
    lohitunga_judge_answer verdict = lohitunga_judge(tdt, sizeof tdt);
    lohitunga_date date = lohitunga_read_date(0xC079).date;
    bool read = verdict.number == 0 && lohitunga_text(verdict.number)[0] == 'N' && date.year == 1993;
    int32_t row[LOHITUNGA_CONTENT_ROW];
    uint8_t room[LOHITUNGA_DESCRIPTOR_ROOM];
    lohitunga_content_row({5, 1, 0xA0}, row);
    bool written = lohitunga_write_content(row, LOHITUNGA_CONTENT_ROW, room, sizeof room).size == 4 && room[2] == 0x51;
    if (!read || !written || lohitunga_interface() != LOHITUNGA_INTERFACE) {
        std::printf("header: C++ has other answers\n");
        return 1;
    }
    std::printf("header: taken by C and by C++\n");
    return 0;
}
