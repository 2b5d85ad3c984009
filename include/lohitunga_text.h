/* What each number of a refusal means, in the words of docs/REFUSALS.md, which says also what to look at. */
#ifndef LOHITUNGA_TEXT_H
#define LOHITUNGA_TEXT_H

#include <stdint.h>

/* A sentence or two, in ASCII. 0 and every number that no call gives have texts too; none is a null pointer. */
static inline const char *lohitunga_text(uint32_t number) {
    switch (number) {
    case 0: return "No refusal.";
    case 1: return "Fewer than 3 bytes: there is no section_length to read.";
    case 2: return "table_id is none of NIT (40, 41), SDT (42, 46), BAT (4A), EIT (4E to 6F), TDT (70), TOT (73).";
    case 3: return "section_syntax_indicator is wrong: it is 1 in NIT, SDT, BAT and EIT, 0 in TDT and TOT.";
    case 4:
        return "section_length is outside the table's range: NIT and BAT 13 to 1,021, SDT 12 to 1,021, EIT 15 to "
               "4,093, TDT 5, TOT 11 to 1,021.";
    case 5: return "The bytes handed in are not 3 + section_length.";
    case 6: return "The CRC_32 does not hold.";
    case 7: return "section_number is above last_section_number.";
    case 8: return "A loop is longer than the room it stands in. The place is that of its two-byte length.";
    case 9:
        return "A descriptor is longer than its loop, or one byte is left where a descriptor needs two. The place "
               "is that of its tag.";
    case 10:
        return "Bytes are left over: fewer than an entry's fixed part, or between the last loop and the CRC. The "
               "place is that of the first of them.";
    case 21:
        return "The room lent is under 5,120 bytes for a sheet, or under 4,096 for a section, however short the "
               "result would be.";
    case 22:
        return "The sheet ends early: in the middle of a field, of a descriptor, or before as many items as a count "
               "says.";
    case 23: return "The first byte is no table_id that is known.";
    case 24:
        return "A field is too large: version above 31; current, a flag or free_CA_mode above 1; running_status "
               "above 7; section number above last.";
    case 25: return "Bytes are left behind the sheet.";
    case 26:
        return "The section would be longer than its table allows: section_length above 1,021, for EIT above 4,093.";
    case 41: return "The packet is not 188 bytes.";
    case 42: return "The hold is under 4,096 bytes or the out room under 4,280.";
    case 43:
        return "The record can't stand: PID above 8,191; counter above 15; number of the section rejected last above "
               "10; more than 4,095 bytes in hand; bytes in hand without a counter; first held byte 0xFF; or a held "
               "header that declares no more than is held, or over 4,096 in all.";
    case 44: return "The first byte is not 0x47.";
    case 45: return "transport_error_indicator is 1: the receiver before us could not correct the packet.";
    case 46: return "The packet has another PID.";
    case 47: return "The packet is scrambled (transport_scrambling_control is not 00).";
    case 48:
        return "The adaptation field can't be: control 00; with payload a length above 182; without payload a "
               "length other than 183.";
    case 49: return "The start flag is set, and the pointer points past the payload's last byte.";
    case 61: return "No byte at all, or the tag of another descriptor.";
    case 62:
        return "The length byte is missing or is not the number of bytes after it; or the body does not fit the "
               "layout: 11 bytes for satellite, cable and terrestrial; whole items in a list (service list 3 bytes "
               "each, content 2, parental rating 4, local time offset 13); names that end where the body ends.";
    case 63: return "A BCD digit is above 9.";
    case 64: return "An hour is above 23, a minute or a second above 59. (The hours of a duration go to 99.)";
    case 65: return "The MJD is below 15,079, that is before 1 March 1900.";
    case 66: return "The index is past the last item of the list. Items are counted from 0; an empty list has none.";
    case 81: return "current_next_indicator is 0: the section announces a table that does not hold yet.";
    case 82:
        return "A section of another sub-table: another table_id or extension; for SDT another original_network_id, "
               "for EIT another transport_stream_id or original_network_id. A version is never 82.";
    case 83: return "TDT or TOT: they are one section each and have no roll.";
    case 84:
        return "segment_last_section_number of a schedule (EIT, 50 to 6F) is below section_number, above "
               "last_section_number or in another segment of eight numbers.";
    case 101: return "The PID is above 8,191 or the counter above 15.";
    case 102:
        return "The sizes do not cut the bytes into sections; or a section has fewer than 3 bytes, is not as long as "
               "its header says, is over 4,096 bytes, or begins with 0xFF.";
    case 103: return "The room lent is under 188 bytes for each packet.";
    case 111: return "The room lent is under 257 bytes, however short the descriptor would be.";
    case 112:
        return "A field is outside its layout: a number that its bits or digits do not hold; a flag above 1; a "
               "roll-off of DVB-S; an offset of a day or more, or two of opposite sign in one item; an MJD outside "
               "15,079 to 65,535, an hour above 23, a minute or a second above 59, or any of these four beside an "
               "undefined time; numbers that are no whole row of a list; a text that does not lie in the bytes "
               "lent.";
    case 113: return "The body would have over 255 bytes.";
    default: return "No number of this library.";
    }
}

#endif
