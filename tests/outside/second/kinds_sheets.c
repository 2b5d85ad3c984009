#include "kinds.h"
#include "lohitunga.h"
#include "second.h"
#include "tally.h"

#include <string.h>

/* Sheets */

static void prepare_sheets(void)
{
    must_meet("section to sheet", "0 21 1 2 3 4 5 6 7 8 9 10");
    must_meet("sheet to section", "0 21 22 23 24 25 26");
    must_meet("round trip", "sheet section");
}

static uint8_t room_before[9000], room_second[9000];

static void compare_to_sheet(const uint8_t *section, size_t size, size_t room_size)
{
    memcpy(room_second, room_before, sizeof room_second);
    struct second_written w = second_to_sheet(section, size, room_second, room_size);
    for (enum placing p = 0; p < PLACINGS; p++) {
        call_begins("lohitunga_to_sheet", p);
        call_piece("section", section, size);
        call_number("room", (long long)room_size);
        uint8_t *room = room_lend(&rooms.out, room_before, room_size, p, 1);
        lohitunga_sheet_answer a = lohitunga_to_sheet(lend(section, size, p), size, room, room_size);
        long long library[] = {a.number, (long long)a.place, (long long)a.size};
        long long second[] = {w.number, w.place, (long long)w.written};
        SAME("number place size", library, second);
        same_bytes("the room", room_now(&rooms.out), room_second, room_size);
        must(room_back(&rooms.out), "the canaries beside the room stand");
        back();
    }
    met_number("section to sheet", w.number);
}

static void compare_to_section(const uint8_t *sheet, size_t size, size_t room_size)
{
    memcpy(room_second, room_before, sizeof room_second);
    struct second_written w = second_to_section(sheet, size, room_second, room_size);
    for (enum placing p = 0; p < PLACINGS; p++) {
        call_begins("lohitunga_to_section", p);
        call_piece("sheet", sheet, size);
        call_number("room", (long long)room_size);
        uint8_t *room = room_lend(&rooms.out, room_before, room_size, p, 1);
        lohitunga_section_answer a = lohitunga_to_section(lend(sheet, size, p), size, room, room_size);
        long long library[] = {a.number, (long long)a.size};
        long long second[] = {w.number, (long long)w.written};
        SAME("number size", library, second);
        same_bytes("the room", room_now(&rooms.out), room_second, room_size);
        must(room_back(&rooms.out), "the canaries beside the room stand");
        back();
    }
    met_number("sheet to section", w.number);
}

/* Mostly just large enough; 21 otherwise, or more than is needed. */
static size_t room_size_of(struct dice *d, size_t least)
{
    if (one_in(d, 16))
        return one_in(d, 2) ? least - 1 : below(d, (unsigned)least);
    return one_in(d, 4) ? least + below(d, 3000) : least;
}

/* Demand 2: "An accepted sheet made into a section and back is the same bytes; an accepted section made into a sheet and back is too, if its reserved bits were ones." */
static void sheet_round_trip(const uint8_t *sheet, size_t size)
{
    static uint8_t section[4096], again[5120];
    call_begins("round trip", AT_END);
    call_piece("sheet", sheet, size);
    lohitunga_section_answer a = lohitunga_to_section(sheet, size, section, sizeof section);
    if (a.number)
        return;
    must(lohitunga_judge(section, a.size).number == 0, "a section made from a sheet is accepted");
    lohitunga_sheet_answer b = lohitunga_to_sheet(section, a.size, again, sizeof again);
    must(b.number == 0 && b.size == size, "a sheet made into a section and back has its size");
    same_bytes("the sheet made into a section and back", again, sheet, size);
    met_word("round trip", "sheet", 1);
}

/* An accepted section with its reserved bits as ones. */
static void put_ones(struct section *s)
{
    uint8_t *b = s->bytes;
    unsigned id = b[0];
    int sdt = id == 0x42 || id == 0x46, eit = id >= 0x4E && id <= 0x6F;
    size_t at, fixed = sdt ? 5 : eit ? 12 : 6, crc = s->size - 4;
    b[1] |= 0x70;
    if (id == 0x70)
        return;
    if (id == 0x73) {
        b[8] |= 0xF0;
        put_crc_right(s);
        return;
    }
    b[5] |= 0xC0;
    if (sdt) {
        b[10] = 0xFF;
        at = 11;
    } else if (eit) {
        at = 14;
    } else {
        b[8] |= 0xF0;
        at = 10 + (b[8] % 16u * 256u + b[9]);
        b[at] |= 0xF0;
        at += 2;
    }
    while (at < crc) {
        if (sdt)
            b[at + 2] |= 0xFC;
        else if (!eit)
            b[at + 4] |= 0xF0;
        at += fixed + (b[at + fixed - 2] % 16u * 256u + b[at + fixed - 1]);
    }
    put_crc_right(s);
}

static void section_round_trip(struct section *s)
{
    static uint8_t sheet[5120], section[4096];
    if (second_judge(s->bytes, s->size).number)
        return;
    put_ones(s);
    call_begins("round trip", AT_END);
    call_piece("section", s->bytes, s->size);
    lohitunga_sheet_answer a = lohitunga_to_sheet(s->bytes, s->size, sheet, sizeof sheet);
    must(a.number == 0, "an accepted section is made into a sheet");
    lohitunga_section_answer b = lohitunga_to_section(sheet, a.size, section, sizeof section);
    must(b.number == 0 && b.size == s->size, "a section made into a sheet and back has its size");
    same_bytes("the section made into a sheet and back", section, s->bytes, s->size);
    met_word("round trip", "section", 1);
}

static void one_sheet(struct dice *d)
{
    static struct section s;
    static uint8_t sheet[SHEET_MOST];
    if (one_in(d, 64))
        fill(d, room_before, sizeof room_before);
    size_t n = make_sheet_case(d, sheet);
    compare_to_section(sheet, n, room_size_of(d, 4096));
    sheet_round_trip(sheet, n);
    make_section_case(d, &s);
    compare_to_sheet(s.bytes, s.size, room_size_of(d, 5120));
    section_round_trip(&s);
}

const struct kind kind_sheets = {"sheets", 1, prepare_sheets, NULL, one_sheet};
