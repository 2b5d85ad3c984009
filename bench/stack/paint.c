/* Measures the stack that each call uses: the call is run on a stack that was painted, and what is painted over shows how deep it went.
 *
 *     paint FILE PID ...      streams of packets, whose sections are lent too; a line for each call: its name, and the bytes used below the caller's
 *                             stack pointer, return address included, at most over all inputs
 */
#include <stdio.h>
#include <stdlib.h>
#include <string.h>
#include <ucontext.h>

#include "lohitunga.h"

enum { ROOM = 65536, GAP = 1024, BLOCK = 256 };

static uint8_t stack[ROOM] __attribute__((aligned(64)));
static ucontext_t here, there;
static void (*chosen)(void);
static uint8_t *volatile pointer_at_call;

/* What follows the call, back in the C library, stays above what the call used. */
static void below_a_gap(void) {
    volatile char gap[GAP];
    gap[0] = 0;
    chosen();
    gap[1] = gap[0];
}

static size_t used_by(void (*thunk)(void), int paint) {
    memset(stack, paint, ROOM);
    getcontext(&there);
    there.uc_stack.ss_sp = stack;
    there.uc_stack.ss_size = ROOM;
    there.uc_link = &here;
    chosen = thunk;
    makecontext(&there, below_a_gap, 0);
    swapcontext(&here, &there);
    uint8_t painted[BLOCK];
    memset(painted, paint, BLOCK);
    size_t deepest = 0;
    while (memcmp(stack + deepest, painted, BLOCK) == 0)
        deepest += BLOCK;
    while (stack[deepest] == (uint8_t)paint)
        deepest++;
    return pointer_at_call - (stack + deepest);
}

/* What the thunks lend. */
static const uint8_t *bytes;
static size_t size, number;
static lohitunga_part rest;
static uint8_t hold[LOHITUNGA_HOLD], out[LOHITUNGA_OUT], room[LOHITUNGA_SHEET_ROOM];
static lohitunga_record record;
static lohitunga_roll roll;
static volatile uint8_t taken[512];

/* And to the writers: texts are parts of the bytes, each list has as many rows. */
enum { ROWS_MOST = 130 };
static struct {
    lohitunga_part text;
    lohitunga_service service;
    lohitunga_short_event event;
    lohitunga_satellite satellite;
    lohitunga_cable cable;
    lohitunga_terrestrial terrestrial;
    int32_t services[ROWS_MOST * LOHITUNGA_SERVICE_LIST_ROW], contents[ROWS_MOST * LOHITUNGA_CONTENT_ROW];
    int32_t ratings[ROWS_MOST * LOHITUNGA_PARENTAL_RATING_ROW], offsets[ROWS_MOST * LOHITUNGA_LOCAL_TIME_OFFSET_ROW];
    size_t rows;
} fields;

#define AT_CALL() __asm__ volatile("mov %%rsp, %0" : "=m"(pointer_at_call))
#define CALLS(CALL) \
    CALL(lohitunga_crc32, uint32_t, (bytes, size)) \
    CALL(lohitunga_fresh, lohitunga_record, (number)) \
    CALL(lohitunga_collect, lohitunga_collect_answer, (&record, hold, sizeof hold, out, sizeof out, bytes, size)) \
    CALL(lohitunga_judge, lohitunga_judge_answer, (bytes, size)) \
    CALL(lohitunga_search, lohitunga_search_answer, (bytes, size, number)) \
    CALL(lohitunga_open, lohitunga_open_answer, (bytes, size)) \
    CALL(lohitunga_next_section, lohitunga_section_step, (bytes, size, rest)) \
    CALL(lohitunga_packets, lohitunga_packets_answer, (number, number >> 16, bytes, size, &size, 1, room, sizeof room)) \
    CALL(lohitunga_next_entry, lohitunga_entry_step, (bytes, size, rest)) \
    CALL(lohitunga_next_descriptor, lohitunga_descriptor_step, (bytes, size, rest)) \
    CALL(lohitunga_walk, lohitunga_walk_answer, (bytes, size, number)) \
    CALL(lohitunga_time_from, lohitunga_time_answer, (bytes, size)) \
    CALL(lohitunga_duration_from, lohitunga_duration_answer, (bytes, size)) \
    CALL(lohitunga_read_network_name, lohitunga_text_answer, (bytes, size)) \
    CALL(lohitunga_read_stuffing, lohitunga_text_answer, (bytes, size)) \
    CALL(lohitunga_read_service, lohitunga_service_answer, (bytes, size)) \
    CALL(lohitunga_read_short_event, lohitunga_short_event_answer, (bytes, size)) \
    CALL(lohitunga_service_list_count, lohitunga_count_answer, (bytes, size)) \
    CALL(lohitunga_read_service_list, lohitunga_service_list_answer, (bytes, size, number)) \
    CALL(lohitunga_content_count, lohitunga_count_answer, (bytes, size)) \
    CALL(lohitunga_read_content, lohitunga_content_answer, (bytes, size, number)) \
    CALL(lohitunga_parental_rating_count, lohitunga_count_answer, (bytes, size)) \
    CALL(lohitunga_read_parental_rating, lohitunga_parental_rating_answer, (bytes, size, number)) \
    CALL(lohitunga_local_time_offset_count, lohitunga_count_answer, (bytes, size)) \
    CALL(lohitunga_read_local_time_offset, lohitunga_local_time_offset_answer, (bytes, size, number)) \
    CALL(lohitunga_read_satellite, lohitunga_satellite_answer, (bytes, size)) \
    CALL(lohitunga_read_cable, lohitunga_cable_answer, (bytes, size)) \
    CALL(lohitunga_read_terrestrial, lohitunga_terrestrial_answer, (bytes, size)) \
    CALL(lohitunga_satellite_hertz, uint64_t, ((lohitunga_satellite_frequency){number})) \
    CALL(lohitunga_cable_hertz, uint64_t, ((lohitunga_cable_frequency){number})) \
    CALL(lohitunga_terrestrial_hertz, uint64_t, ((lohitunga_terrestrial_frequency){number})) \
    CALL(lohitunga_interface, uint32_t, ()) \
    CALL(lohitunga_read_time, lohitunga_time_answer, (number, number >> 16, number >> 24, number >> 32)) \
    CALL(lohitunga_read_duration, lohitunga_duration_answer, (number, number >> 8, number >> 16)) \
    CALL(lohitunga_read_offset, lohitunga_offset_answer, (number >> 16 & 1, number, number >> 8)) \
    CALL(lohitunga_read_date, lohitunga_date_answer, (number)) \
    CALL(lohitunga_roll_empty, lohitunga_roll, ()) \
    CALL(lohitunga_roll_ask, lohitunga_roll_answer, (&roll)) \
    CALL(lohitunga_roll_take, lohitunga_roll_answer, (&roll, bytes, size)) \
    CALL(lohitunga_to_sheet, lohitunga_sheet_answer, (bytes, size, room, sizeof room)) \
    CALL(lohitunga_to_section, lohitunga_section_answer, (bytes, size, room, sizeof room)) \
    CALL(lohitunga_write_network_name, lohitunga_write_answer, (fields.text, bytes, size, room, sizeof room)) \
    CALL(lohitunga_write_stuffing, lohitunga_write_answer, (fields.text, bytes, size, room, sizeof room)) \
    CALL(lohitunga_write_service, lohitunga_write_answer, (fields.service, bytes, size, room, sizeof room)) \
    CALL(lohitunga_write_short_event, lohitunga_write_answer, (fields.event, bytes, size, room, sizeof room)) \
    CALL(lohitunga_write_service_list, lohitunga_write_answer, (fields.services, fields.rows * LOHITUNGA_SERVICE_LIST_ROW, room, sizeof room)) \
    CALL(lohitunga_write_content, lohitunga_write_answer, (fields.contents, fields.rows * LOHITUNGA_CONTENT_ROW, room, sizeof room)) \
    CALL(lohitunga_write_parental_rating, lohitunga_write_answer, (fields.ratings, fields.rows * LOHITUNGA_PARENTAL_RATING_ROW, room, sizeof room)) \
    CALL(lohitunga_write_local_time_offset, lohitunga_write_answer, (fields.offsets, fields.rows * LOHITUNGA_LOCAL_TIME_OFFSET_ROW, room, sizeof room)) \
    CALL(lohitunga_write_satellite, lohitunga_write_answer, (fields.satellite, room, sizeof room)) \
    CALL(lohitunga_write_cable, lohitunga_write_answer, (fields.cable, room, sizeof room)) \
    CALL(lohitunga_write_terrestrial, lohitunga_write_answer, (fields.terrestrial, room, sizeof room))

/* The answer is kept, so that the compiler keeps the call. */
#define THUNK(name, type, words) \
    static void run_##name(void) { \
        AT_CALL(); \
        type answer = name words; \
        for (size_t i = 0; i < sizeof answer && i < sizeof taken; i += 64) \
            taken[i] = ((uint8_t *)&answer)[i]; \
    }
CALLS(THUNK)

#define COUNT(name, type, words) call_##name,
enum { CALLS(COUNT) HOW_MANY };
#define ROW(name, type, words) {#name, run_##name, 0},
static struct {
    const char *name;
    void (*run)(void);
    size_t most;
} calls[] = {CALLS(ROW)};

static void measure(int which) {
    static const int paints[2] = {0xA5, 0x3C};
    static uint8_t kept_hold[LOHITUNGA_HOLD];
    lohitunga_record kept_record = record;
    lohitunga_roll kept_roll = roll;
    memcpy(kept_hold, hold, sizeof hold);
    for (int p = 0; p < 2; p++) {
        record = kept_record;
        roll = kept_roll;
        memcpy(hold, kept_hold, sizeof hold);
        size_t used = used_by(calls[which].run, paints[p]);
        if (used > calls[which].most)
            calls[which].most = used;
    }
}

static void lend(const uint8_t *from, size_t n) {
    bytes = from;
    size = n;
}

static const uint8_t descriptors[][20] = {
    {0x40, 3, 'B', 'R', 'A'},
    {0x41, 6, 0x10, 0x20, 1, 0x10, 0x38, 2},
    {0x42, 2, 0xFF, 0},
    {0x43, 11, 0x01, 0x17, 0x57, 0x25, 0x01, 0x92, 0x99, 0x02, 0x74, 0x50, 0x03},
    {0x43, 11, 0x01, 0x17, 0x57, 0x25, 0x01, 0x92, 0x81, 0x02, 0x74, 0x50, 0x03},
    {0x44, 11, 0x03, 0x12, 0x00, 0x00, 0xFF, 0xF2, 0x03, 0x02, 0x74, 0x50, 0x0F},
    {0x48, 9, 1, 3, 'G', 'B', 'R', 3, 'p', 'o', 'r'},
    {0x4D, 11, 'p', 'o', 'r', 3, 'B', 'R', 'A', 3, 'G', 'B', 'R'},
    {0x54, 2, 0x51, 0xA0},
    {0x55, 8, 'G', 'B', 'R', 4, 'B', 'R', 'A', 1},
    {0x58, 13, 'G', 'B', 'R', 2, 0, 0, 0xC0, 0x79, 0x12, 0x45, 0, 1, 0},
    {0x58, 13, 'G', 'B', 'R', 3, 0x23, 0x59, 0xFF, 0xFF, 0xFF, 0xFF, 0xFF, 1, 0},
    {0x58, 13, 'G', 'B', 'R', 2, 0, 0, 0, 0, 0x12, 0x45, 0, 1, 0x0A},
    {0x5A, 11, 0, 0, 0, 1, 0x57, 0x9D, 0xCD, 0xFF, 0xFF, 0xFF, 0xFF},
};

static uint32_t seed = 412;
static uint32_t chance(uint32_t below) {
    seed = seed * 1664525 + 1013904223;
    return (uint32_t)(((uint64_t)seed * below) >> 32);
}

/* Every reading of these bytes, and of them with a byte turned and cut short. */
static void descriptor(const uint8_t *from, size_t n) {
    uint8_t turned[257];
    for (int k = 0; k < 12; k++) {
        memcpy(turned, from, n);
        if (k > 2 && n > 2)
            turned[2 + chance(n - 2)] = chance(256);
        lend(turned, k == 1 ? n - 1 : n);
        number = k == 2 ? 9 : 0;
        for (int i = call_lohitunga_walk; i <= call_lohitunga_read_terrestrial; i++)
            measure(i);
    }
}

static void numbers(void) {
    for (int k = 0; k < 4000; k++) {
        number = (size_t)chance(UINT32_MAX) << 16 ^ chance(UINT32_MAX);
        if (k % 3 == 0) /* digits that are none above 5 */
            number = (number & 0x5555555555555555) | 0xC0000;
        if (k == 1)
            number = 0xFFFFFFFFFF;
        for (int i = call_lohitunga_satellite_hertz; i <= call_lohitunga_read_date; i++)
            measure(i);
        measure(call_lohitunga_fresh);
    }
}

/* Rows in range. */
static void rows(void) {
    for (size_t i = 0; i < ROWS_MOST; i++) {
        int32_t side = chance(2) ? 1 : -1, undefined = chance(4) == 0, *offset = fields.offsets + i * LOHITUNGA_LOCAL_TIME_OFFSET_ROW;
        lohitunga_service_list_item service = {chance(65536), chance(256)};
        lohitunga_content_item content = {chance(16), chance(16), chance(256)};
        lohitunga_parental_rating_item rating = {chance(1 << 24), chance(256)};
        lohitunga_moment change = {15079 + chance(50457), chance(24), chance(60), chance(60), 0}, none = {0, 0, 0, 0, 1};
        lohitunga_local_time_offset_item item = {rating.country_code, chance(64), 0, undefined ? none : change, 0};
        lohitunga_service_list_row(service, fields.services + i * LOHITUNGA_SERVICE_LIST_ROW);
        lohitunga_content_row(content, fields.contents + i * LOHITUNGA_CONTENT_ROW);
        lohitunga_parental_rating_row(rating, fields.ratings + i * LOHITUNGA_PARENTAL_RATING_ROW);
        lohitunga_local_time_offset_row(item, offset);
        offset[2] = side * (int32_t)chance(1440);
        offset[8] = side * (int32_t)chance(1440);
    }
}

/* Fields in range, lists and texts that fit and that are too long; then with some of the fields anywhere. */
static void writings(void) {
    static uint8_t text[600];
    uint8_t *all = (uint8_t *)&fields;
    for (size_t i = 0; i < sizeof text; i++)
        text[i] = chance(256);
    lend(text, sizeof text);
    for (int k = 0; k < 600; k++) {
        lohitunga_part first = {chance(200), chance(k % 4 ? 120 : 300)}, second = {chance(200), chance(k % 4 ? 120 : 300)};
        uint8_t s2 = chance(2);
        fields.text = first;
        fields.service = (lohitunga_service){chance(256), first, second};
        fields.event = (lohitunga_short_event){chance(1 << 24), first, second};
        fields.satellite = (lohitunga_satellite){{chance(100000000)}, chance(10000), chance(10000000), chance(2), chance(4), s2, s2 ? chance(4) : 0,
                                                 chance(4), chance(16)};
        fields.cable = (lohitunga_cable){{chance(100000000)}, chance(10000000), chance(16), chance(256), chance(16)};
        fields.terrestrial = (lohitunga_terrestrial){{chance(UINT32_MAX)}, chance(8), chance(2), chance(2), chance(2), chance(4), chance(8), chance(8),
                                                     chance(8), chance(4), chance(4), chance(2)};
        rows();
        for (int n = 0; k % 5 == 0 && n < 8; n++)
            all[chance(sizeof fields - sizeof fields.rows)] = chance(256);
        fields.rows = k % 3 ? chance(20) : chance(ROWS_MOST + 1);
        for (int i = call_lohitunga_write_network_name; i < HOW_MANY; i++)
            measure(i);
    }
}

/* A section's turn to a sheet, and that sheet's turn back. */
static void turns(void) {
    static uint8_t sheet[LOHITUNGA_SHEET_ROOM];
    measure(call_lohitunga_to_sheet);
    size_t n = lohitunga_to_sheet(bytes, size, sheet, sizeof sheet).size;
    lend(sheet, n);
    measure(call_lohitunga_to_section);
}

/* A section, as it is, cut short, and with a byte turned under a right CRC_32. */
static void section(const uint8_t *from, size_t n) {
    static uint8_t turned[4096];
    for (int k = 0; k < 24; k++) {
        memcpy(turned, from, n);
        if (k > 1 && n > 12) {
            turned[8 + chance(n - 12)] = chance(256);
            uint32_t crc = lohitunga_crc32(turned, n - 4);
            for (int i = 0; i < 4; i++)
                turned[n - 4 + i] = crc >> (24 - 8 * i);
        }
        lend(turned, k == 1 ? n - 1 : n);
        number = k % 2 ? 0x48 : 0x11;
        rest = k % 3 ? lohitunga_open(bytes, size).entries : (lohitunga_part){0, size};
        for (int i = call_lohitunga_crc32; i <= call_lohitunga_walk; i++)
            if (i != call_lohitunga_collect)
                measure(i);
        measure(call_lohitunga_roll_empty);
        measure(call_lohitunga_roll_take);
        measure(call_lohitunga_roll_ask);
        turns();
        if (k % 8 == 7)
            roll = lohitunga_roll_empty();
    }
}

/* How many sections the packet finishes, the collector being left as it is. */
static size_t finished(const uint8_t *packet, size_t n) {
    static uint8_t same_hold[LOHITUNGA_HOLD], other_out[LOHITUNGA_OUT];
    lohitunga_record same = record;
    memcpy(same_hold, hold, sizeof hold);
    return lohitunga_collect(&same, same_hold, sizeof same_hold, other_out, sizeof other_out, packet, n).sections;
}

static void packets(FILE *stream, uint16_t pid) {
    static uint8_t sections[LOHITUNGA_OUT];
    uint8_t packet[LOHITUNGA_PACKET];
    size_t n;
    record = lohitunga_fresh(pid);
    while ((n = fread(packet, 1, sizeof packet, stream)) > 0) {
        size_t left = finished(packet, n);
        lend(packet, n);
        measure(call_lohitunga_collect);
        memcpy(sections, out, sizeof out);
        for (const uint8_t *at = sections; left > 0; left--) {
            size_t total = 3 + ((at[1] & 15) << 8 | at[2]);
            section(at, total);
            at += total;
        }
    }
}

int main(int argc, char **argv) {
    static const uint8_t eit[] = {0x4E, 0xFF, 0xFD, 0, 1, 0xC1, 0, 0, 0, 2, 0, 3, 0, 0x4E};
    static uint8_t large[4096];
    roll = lohitunga_roll_empty();
    for (size_t i = 0; i < sizeof descriptors / sizeof *descriptors; i++)
        descriptor(descriptors[i], 2 + descriptors[i][1]);
    lend(NULL, 0);
    number = 0;
    for (int i = 0; i < HOW_MANY; i++)
        measure(i);
    numbers();
    writings();
    /* the largest section: events without descriptors, and one with them */
    memcpy(large, eit, sizeof eit);
    for (size_t at = sizeof eit; at + 12 <= sizeof large - 4; at += 12)
        memcpy(large + at, "\0\1\300\171\22\105\0\1\105\60\200\0", 12);
    section(large, sizeof large);
    for (int i = 1; i + 1 < argc; i += 2) {
        FILE *stream = fopen(argv[i], "rb");
        if (!stream) {
            perror(argv[i]);
            return 1;
        }
        packets(stream, (uint16_t)strtoul(argv[i + 1], NULL, 16));
        fclose(stream);
    }
    for (int i = 0; i < HOW_MANY; i++)
        printf("%s %zu\n", calls[i].name, calls[i].most);
    return 0;
}
