/* The header's constants are those of the library. Prints `number text` for every number that has a text of its own. */
#include <stdio.h>
#include <string.h>

#include "lohitunga.h"
#include "lohitunga_text.h"

static int bad;

static void is(const char *what, unsigned of, unsigned given, unsigned wanted)
{
    if (given == wanted)
        return;
    fprintf(stderr, "header: %s of 0x%02X: %u, wanted %u\n", what, of, given, wanted);
    bad = 1;
}

/* One byte is no descriptor: 62 for its own tag, 61 for any other. */
#define TAG(tag, ...) \
    for (unsigned t = 0; t < 256; t++) { \
        const uint8_t byte = (uint8_t)t; \
        is(#tag, t, (__VA_ARGS__).number, t == (tag) ? LOHITUNGA_REFUSED_LAYOUT : LOHITUNGA_REFUSED_TAG); \
    }

static void tags(void)
{
    TAG(LOHITUNGA_TAG_NETWORK_NAME, lohitunga_read_network_name(&byte, 1))
    TAG(LOHITUNGA_TAG_SERVICE_LIST, lohitunga_read_service_list(&byte, 1, 0))
    TAG(LOHITUNGA_TAG_SERVICE_LIST, lohitunga_service_list_count(&byte, 1))
    TAG(LOHITUNGA_TAG_STUFFING, lohitunga_read_stuffing(&byte, 1))
    TAG(LOHITUNGA_TAG_SATELLITE, lohitunga_read_satellite(&byte, 1))
    TAG(LOHITUNGA_TAG_CABLE, lohitunga_read_cable(&byte, 1))
    TAG(LOHITUNGA_TAG_SERVICE, lohitunga_read_service(&byte, 1))
    TAG(LOHITUNGA_TAG_SHORT_EVENT, lohitunga_read_short_event(&byte, 1))
    TAG(LOHITUNGA_TAG_CONTENT, lohitunga_read_content(&byte, 1, 0))
    TAG(LOHITUNGA_TAG_CONTENT, lohitunga_content_count(&byte, 1))
    TAG(LOHITUNGA_TAG_PARENTAL_RATING, lohitunga_read_parental_rating(&byte, 1, 0))
    TAG(LOHITUNGA_TAG_PARENTAL_RATING, lohitunga_parental_rating_count(&byte, 1))
    TAG(LOHITUNGA_TAG_LOCAL_TIME_OFFSET, lohitunga_read_local_time_offset(&byte, 1, 0))
    TAG(LOHITUNGA_TAG_LOCAL_TIME_OFFSET, lohitunga_local_time_offset_count(&byte, 1))
    TAG(LOHITUNGA_TAG_TERRESTRIAL, lohitunga_read_terrestrial(&byte, 1))
}

/* Each writer writes its tag, into a room of LOHITUNGA_DESCRIPTOR_ROOM bytes and none that is shorter. */
#define WRITTEN(tag, ...) \
    for (size_t most = LOHITUNGA_DESCRIPTOR_ROOM - 1; most <= LOHITUNGA_DESCRIPTOR_ROOM; most++) { \
        is("a room for the tag", tag, (__VA_ARGS__).number, most < LOHITUNGA_DESCRIPTOR_ROOM ? LOHITUNGA_REFUSED_DESCRIPTOR_ROOM : 0); \
        is("the tag written", tag, room[0], most < LOHITUNGA_DESCRIPTOR_ROOM ? 0 : (tag)); \
    } \
    room[0] = 0;

/* Of these numbers as many as a row has are an item; one more or less is no whole row. */
#define ROWS(tag, row, write) \
    WRITTEN(tag, write(numbers, row, room, most)) \
    is("a row too short, of the tag", tag, write(numbers, row - 1, room, sizeof room).number, LOHITUNGA_REFUSED_FIELD); \
    is("a row too long, of the tag", tag, write(numbers, row + 1, room, sizeof room).number, LOHITUNGA_REFUSED_FIELD);

static void written(void)
{
    static uint8_t room[LOHITUNGA_DESCRIPTOR_ROOM], bytes[LOHITUNGA_DESCRIPTOR_ROOM];
    static const int32_t numbers[LOHITUNGA_LOCAL_TIME_OFFSET_ROW + 1] = {0, 0, 0, 0, 0, 0, 0, 1, 0, 0}; /* an undefined time, in a row of nine */
    const lohitunga_part none = {0, 0}, all = {0, sizeof bytes};
    const lohitunga_service service = {1, none, none};
    const lohitunga_short_event event = {0, none, none};
    const lohitunga_satellite satellite = {{0}, 0, 0, 0, 0, 0, 0, 0, 0};
    const lohitunga_cable cable = {{0}, 0, 0, 0, 0};
    const lohitunga_terrestrial terrestrial = {{0}, 0, 0, 0, 0, 0, 0, 0, 0, 0, 0, 0};
    WRITTEN(LOHITUNGA_TAG_NETWORK_NAME, lohitunga_write_network_name(none, bytes, sizeof bytes, room, most))
    WRITTEN(LOHITUNGA_TAG_STUFFING, lohitunga_write_stuffing(none, bytes, sizeof bytes, room, most))
    WRITTEN(LOHITUNGA_TAG_SERVICE, lohitunga_write_service(service, bytes, sizeof bytes, room, most))
    WRITTEN(LOHITUNGA_TAG_SHORT_EVENT, lohitunga_write_short_event(event, bytes, sizeof bytes, room, most))
    ROWS(LOHITUNGA_TAG_SERVICE_LIST, LOHITUNGA_SERVICE_LIST_ROW, lohitunga_write_service_list)
    ROWS(LOHITUNGA_TAG_CONTENT, LOHITUNGA_CONTENT_ROW, lohitunga_write_content)
    ROWS(LOHITUNGA_TAG_PARENTAL_RATING, LOHITUNGA_PARENTAL_RATING_ROW, lohitunga_write_parental_rating)
    ROWS(LOHITUNGA_TAG_LOCAL_TIME_OFFSET, LOHITUNGA_LOCAL_TIME_OFFSET_ROW, lohitunga_write_local_time_offset)
    WRITTEN(LOHITUNGA_TAG_SATELLITE, lohitunga_write_satellite(satellite, room, most))
    WRITTEN(LOHITUNGA_TAG_CABLE, lohitunga_write_cable(cable, room, most))
    WRITTEN(LOHITUNGA_TAG_TERRESTRIAL, lohitunga_write_terrestrial(terrestrial, room, most))
    is("a long name", LOHITUNGA_TAG_NETWORK_NAME, lohitunga_write_network_name(all, bytes, sizeof bytes, room, sizeof room).number,
       LOHITUNGA_REFUSED_DESCRIPTOR_LONG);
}

static int is_table(unsigned id)
{
    static const uint8_t ids[] = {LOHITUNGA_TABLE_NIT_ACTUAL, LOHITUNGA_TABLE_NIT_OTHER, LOHITUNGA_TABLE_SDT_ACTUAL,
                                  LOHITUNGA_TABLE_SDT_OTHER,  LOHITUNGA_TABLE_BAT,       LOHITUNGA_TABLE_EIT_ACTUAL,
                                  LOHITUNGA_TABLE_EIT_OTHER,  LOHITUNGA_TABLE_TDT,       LOHITUNGA_TABLE_TOT};
    if (memchr(ids, (int)id, sizeof ids))
        return 1;
    return (id >= LOHITUNGA_TABLE_EIT_SCHEDULE_ACTUAL && id < LOHITUNGA_TABLE_EIT_SCHEDULE_ACTUAL + 16) ||
           (id >= LOHITUNGA_TABLE_EIT_SCHEDULE_OTHER && id < LOHITUNGA_TABLE_EIT_SCHEDULE_OTHER + 16);
}

static void tables(void)
{
    for (unsigned id = 0; id < 256; id++) {
        const uint8_t section[3] = {(uint8_t)id, 0, 0};
        is("a table_id", id, lohitunga_judge(section, 3).number != LOHITUNGA_REFUSED_TABLE_ID, (unsigned)is_table(id));
    }
}

int main(void)
{
    tags();
    written();
    tables();
    is("the interface", 0, lohitunga_interface(), LOHITUNGA_INTERFACE);
    const char *none = lohitunga_text(UINT32_MAX);
    for (uint32_t number = 1; number < 100000; number++)
        if (strcmp(lohitunga_text(number), none))
            printf("%u %s\n", number, lohitunga_text(number));
    return bad;
}
