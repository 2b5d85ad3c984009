/* What the header allows of what is lent: a null pointer with a length of 0, for every call that takes bytes, and
 * inputs that overlap each other. */
#include <stdio.h>
#include <stdlib.h>
#include <string.h>

#include "lohitunga.h"

static void is(const char *what, long long given, long long wanted)
{
    if (given == wanted)
        return;
    printf("lent: %s: %lld, wanted %lld\n", what, given, wanted);
    exit(1);
}

/* The call with a null pointer, and its number. */
#define GIVES(number_wanted, ...) is(#__VA_ARGS__, (__VA_ARGS__).number, number_wanted)

/* Texts of no byte, lists of no number, and no room. */
static void written_of_nothing(uint8_t *room, lohitunga_part anywhere)
{
    const size_t enough = LOHITUNGA_DESCRIPTOR_ROOM;
    const lohitunga_part none = {0, 0};
    const lohitunga_service service = {1, none, none}, service_anywhere = {1, none, anywhere};
    const lohitunga_short_event event = {0, none, none}, event_anywhere = {0, anywhere, none};
    const lohitunga_satellite satellite = {{0}, 0, 0, 0, 0, 0, 0, 0, 0};
    const lohitunga_cable cable = {{0}, 0, 0, 0, 0};
    const lohitunga_terrestrial terrestrial = {{0}, 0, 0, 0, 0, 0, 0, 0, 0, 0, 0, 0};
    GIVES(0, lohitunga_write_network_name(none, NULL, 0, room, enough));
    GIVES(112, lohitunga_write_network_name(anywhere, NULL, 0, room, enough));
    GIVES(111, lohitunga_write_network_name(none, NULL, 0, NULL, 0));
    GIVES(0, lohitunga_write_stuffing(none, NULL, 0, room, enough));
    GIVES(112, lohitunga_write_stuffing(anywhere, NULL, 0, room, enough));
    GIVES(111, lohitunga_write_stuffing(none, NULL, 0, NULL, 0));
    GIVES(0, lohitunga_write_service(service, NULL, 0, room, enough));
    GIVES(112, lohitunga_write_service(service_anywhere, NULL, 0, room, enough));
    GIVES(111, lohitunga_write_service(service, NULL, 0, NULL, 0));
    GIVES(0, lohitunga_write_short_event(event, NULL, 0, room, enough));
    GIVES(112, lohitunga_write_short_event(event_anywhere, NULL, 0, room, enough));
    GIVES(111, lohitunga_write_short_event(event, NULL, 0, NULL, 0));
    GIVES(0, lohitunga_write_service_list(NULL, 0, room, enough));
    GIVES(111, lohitunga_write_service_list(NULL, 0, NULL, 0));
    GIVES(0, lohitunga_write_content(NULL, 0, room, enough));
    GIVES(111, lohitunga_write_content(NULL, 0, NULL, 0));
    GIVES(0, lohitunga_write_parental_rating(NULL, 0, room, enough));
    GIVES(111, lohitunga_write_parental_rating(NULL, 0, NULL, 0));
    GIVES(0, lohitunga_write_local_time_offset(NULL, 0, room, enough));
    GIVES(111, lohitunga_write_local_time_offset(NULL, 0, NULL, 0));
    GIVES(111, lohitunga_write_satellite(satellite, NULL, 0));
    GIVES(111, lohitunga_write_cable(cable, NULL, 0));
    GIVES(111, lohitunga_write_terrestrial(terrestrial, NULL, 0));
    is("an empty list has tag and length", (long long)lohitunga_write_content(NULL, 0, room, enough).size, 2);
}

static void nothing(void)
{
    static uint8_t hold[LOHITUNGA_HOLD], out[LOHITUNGA_OUT], packet[LOHITUNGA_PACKET], room[LOHITUNGA_SHEET_ROOM];
    lohitunga_record record = lohitunga_fresh(0x11), as_before = record;
    lohitunga_roll roll = lohitunga_roll_empty(), empty = roll;
    lohitunga_part anywhere = {SIZE_MAX, SIZE_MAX};
    static const uint8_t least[3] = {0x72};
    const size_t size_of_least = sizeof least;
    is("CRC_32 of nothing", lohitunga_crc32(NULL, 0), 0xFFFFFFFF);
    GIVES(1, lohitunga_judge(NULL, 0));
    GIVES(1, lohitunga_search(NULL, 0, LOHITUNGA_TAG_SERVICE));
    GIVES(0, lohitunga_walk(NULL, 0, 0));
    is("a walk over nothing is at its end", lohitunga_walk(NULL, 0, 0).descriptor, 0);
    GIVES(1, lohitunga_open(NULL, 0));
    is("no head of nothing", lohitunga_open(NULL, 0).head.table_id, 0);
    is("no section of nothing", lohitunga_next_section(NULL, 0, anywhere).found, 0);
    is("no entry of nothing", lohitunga_next_entry(NULL, 0, anywhere).found, 0);
    is("no descriptor of nothing", lohitunga_next_descriptor(NULL, 0, anywhere).found, 0);
    is("the rest stays", lohitunga_next_entry(NULL, 0, anywhere).rest.size == anywhere.size, 1);
    GIVES(65, lohitunga_time_from(NULL, 0));
    GIVES(0, lohitunga_duration_from(NULL, 0));
    GIVES(61, lohitunga_read_network_name(NULL, 0));
    GIVES(61, lohitunga_read_stuffing(NULL, 0));
    GIVES(61, lohitunga_read_service(NULL, 0));
    GIVES(61, lohitunga_read_short_event(NULL, 0));
    GIVES(61, lohitunga_service_list_count(NULL, 0));
    GIVES(61, lohitunga_read_service_list(NULL, 0, 0));
    GIVES(61, lohitunga_content_count(NULL, 0));
    GIVES(61, lohitunga_read_content(NULL, 0, 0));
    GIVES(61, lohitunga_parental_rating_count(NULL, 0));
    GIVES(61, lohitunga_read_parental_rating(NULL, 0, 0));
    GIVES(61, lohitunga_local_time_offset_count(NULL, 0));
    GIVES(61, lohitunga_read_local_time_offset(NULL, 0, 0));
    GIVES(61, lohitunga_read_satellite(NULL, 0));
    GIVES(61, lohitunga_read_cable(NULL, 0));
    GIVES(61, lohitunga_read_terrestrial(NULL, 0));
    GIVES(41, lohitunga_collect(&record, NULL, 0, NULL, 0, NULL, 0));
    GIVES(41, lohitunga_collect(&record, hold, sizeof hold, out, sizeof out, NULL, 0));
    GIVES(42, lohitunga_collect(&record, NULL, 0, out, sizeof out, packet, sizeof packet));
    GIVES(42, lohitunga_collect(&record, hold, sizeof hold, NULL, 0, packet, sizeof packet));
    GIVES(0, lohitunga_packets(0x11, 0, NULL, 0, NULL, 0, NULL, 0));
    is("no packet of nothing", (long long)lohitunga_packets(0x11, 0, NULL, 0, NULL, 0, NULL, 0).packets, 0);
    GIVES(101, lohitunga_packets(0x11, 16, NULL, 0, NULL, 0, NULL, 0));
    GIVES(102, lohitunga_packets(0x11, 0, packet, sizeof packet, NULL, 0, NULL, 0));
    GIVES(102, lohitunga_packets(0x11, 0, NULL, 0, &anywhere.size, 1, NULL, 0));
    GIVES(103, lohitunga_packets(0x11, 0, least, sizeof least, &size_of_least, 1, NULL, 0));
    GIVES(21, lohitunga_to_sheet(NULL, 0, NULL, 0));
    GIVES(1, lohitunga_to_sheet(NULL, 0, room, sizeof room));
    GIVES(21, lohitunga_to_section(NULL, 0, NULL, 0));
    GIVES(22, lohitunga_to_section(NULL, 0, room, sizeof room));
    GIVES(1, lohitunga_roll_take(&roll, NULL, 0));
    written_of_nothing(room, anywhere);
    is("the record stays", memcmp(&record, &as_before, sizeof record), 0);
    is("the roll stays", memcmp(&roll, &empty, sizeof roll), 0);
}

/* Every stretch of one buffer is lent in place, so that inputs overlap from call to call, and once more as a copy that stands alone. */
static void overlapping(const uint8_t *bytes, size_t size)
{
    static uint8_t room[LOHITUNGA_SHEET_ROOM], other_room[LOHITUNGA_SHEET_ROOM];
    for (size_t from = 0; from < size; from++)
        for (size_t n = 0; n <= size - from && n <= 80; n++) {
            uint8_t *alone = malloc(n ? n : 1);
            memcpy(alone, bytes + from, n);
            is("CRC_32 in place", lohitunga_crc32(bytes + from, n), lohitunga_crc32(alone, n));
            is("judge in place", lohitunga_judge(bytes + from, n).number, lohitunga_judge(alone, n).number);
            is("search in place", lohitunga_search(bytes + from, n, bytes[from]).number,
               lohitunga_search(alone, n, bytes[from]).number);
            is("walk in place", (long long)lohitunga_walk(bytes + from, n, 0).next,
               (long long)lohitunga_walk(alone, n, 0).next);
            is("sheet in place", lohitunga_to_sheet(bytes + from, n, room, sizeof room).number,
               lohitunga_to_sheet(alone, n, other_room, sizeof other_room).number);
            is("the input stays", memcmp(alone, bytes + from, n), 0);
            free(alone);
        }
}

int main(void)
{
    nothing();
    /* A TDT, within other bytes. */
    static const uint8_t tdt[] = {0x70, 0x70, 0x05, 0xC0, 0x79, 0x12, 0x45, 0x00};
    uint8_t bytes[96];
    for (size_t i = 0; i < sizeof bytes; i++)
        bytes[i] = (uint8_t)(i % 7 ? i * 37 : 0x70);
    memcpy(bytes + 11, tdt, sizeof tdt);
    is("the TDT is one", lohitunga_judge(bytes + 11, sizeof tdt).number, 0);
    overlapping(bytes, sizeof bytes);
    printf("header: a null pointer with length 0 is taken by every call that takes bytes; inputs may overlap\n");
    return 0;
}
