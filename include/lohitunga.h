/* Lohitunga from C: the service information of digital television, EN 300 468 (V1.16.1).
 *
 * It collects sections from transport packets and judges each to the last byte, puts sections into packets, finds descriptors in them, reads those and writes
 * them, turns sections into content sheets and back, and tells which sections of a table have come. No call trusts a length on the wire. Each call ends, traps
 * never, and reads and writes nothing but what was lent: this is proved for every input, and so is what each call answers. The functions are for x86-64 Linux;
 * they use no heap, no global data and no system call, and any number of threads may call them at once, each with what it lends. Of the C library they call
 * memcpy and memset.
 *
 * How to begin: how many good sections a PID of a stream on standard input has. The compiler's words are those of
 * `pkg-config --cflags --libs lohitunga`.
 *
 *     #include <stdio.h>
 *     #include <lohitunga.h>
 *     int main(void) {
 *         static uint8_t hold[LOHITUNGA_HOLD], out[LOHITUNGA_OUT], packet[LOHITUNGA_PACKET];
 *         lohitunga_record record = lohitunga_fresh(LOHITUNGA_PID_SDT_BAT);
 *         size_t sections = 0;
 *         while (fread(packet, sizeof packet, 1, stdin) == 1)
 *             sections += lohitunga_collect(&record, hold, sizeof hold, out, sizeof out, packet, sizeof packet).sections;
 *         printf("%zu sections of %u bytes, %u bytes rejected\n", sections, record.accepted, record.rejected);
 *     }
 *
 * What holds for every call
 * - Bytes are lent as a pointer and a length. They may hold anything. The pointer points to as many bytes as the length says; with a length of 0 it
 *   may be any, also a null pointer. A pointer to a record or a roll is aligned as its type and points to one, whose fields may hold anything. Sizes
 *   of sections and the numbers of a list are lent as bytes are, any numbers, by a pointer that is aligned as its type; their length counts numbers and not
 *   bytes.
 * - What is lent by a pointer without `const` overlaps nothing else that is lent to the same call. Bytes lent by `const` pointers may overlap each other.
 * - No call keeps a pointer. No call writes through a `const` pointer.
 * - Every answer of a call that can refuse has the field `number`: 0, or the number of the first refusal that applies, in the order of its table
 *   below. A refusal alters nothing that was lent. Where `number` is not 0 every other field of the answer is 0, and of the value that it holds, but for
 *   `place` and `digit`, and for `next` of the walk. `lohitunga_text.h` has a sentence for each number.
 * - A place and a `start` are counted from the first byte lent as 0, but for the places of 63 to 65: how these count stands at the readings and times.
 */
#ifndef LOHITUNGA_H
#define LOHITUNGA_H

#include <stddef.h>
#include <stdint.h>

#ifdef __cplusplus
extern "C" {
#endif

/* The version of the library, and the number of this interface: it goes up when the layout of a struct or the meaning of a call changes. A program that
 * was compiled with this header may use an archive or a shared library for which lohitunga_interface() tells the same number. */
#define LOHITUNGA_VERSION "0.1"
#define LOHITUNGA_INTERFACE 6

uint32_t lohitunga_interface(void);

/* PIDs on which tables are broadcast (EN 300 468, table 1). */
#define LOHITUNGA_PID_NIT 0x10
#define LOHITUNGA_PID_SDT_BAT 0x11
#define LOHITUNGA_PID_EIT 0x12
#define LOHITUNGA_PID_TDT_TOT 0x14

/* table_ids. The EIT of a schedule has sixteen each, the first of which stands here. */
#define LOHITUNGA_TABLE_NIT_ACTUAL 0x40
#define LOHITUNGA_TABLE_NIT_OTHER 0x41
#define LOHITUNGA_TABLE_SDT_ACTUAL 0x42
#define LOHITUNGA_TABLE_SDT_OTHER 0x46
#define LOHITUNGA_TABLE_BAT 0x4A
#define LOHITUNGA_TABLE_EIT_ACTUAL 0x4E
#define LOHITUNGA_TABLE_EIT_OTHER 0x4F
#define LOHITUNGA_TABLE_EIT_SCHEDULE_ACTUAL 0x50
#define LOHITUNGA_TABLE_EIT_SCHEDULE_OTHER 0x60
#define LOHITUNGA_TABLE_TDT 0x70
#define LOHITUNGA_TABLE_TOT 0x73

/* Tags of the descriptors that are read and written. */
#define LOHITUNGA_TAG_NETWORK_NAME 0x40
#define LOHITUNGA_TAG_SERVICE_LIST 0x41
#define LOHITUNGA_TAG_STUFFING 0x42
#define LOHITUNGA_TAG_SATELLITE 0x43
#define LOHITUNGA_TAG_CABLE 0x44
#define LOHITUNGA_TAG_SERVICE 0x48
#define LOHITUNGA_TAG_SHORT_EVENT 0x4D
#define LOHITUNGA_TAG_CONTENT 0x54
#define LOHITUNGA_TAG_PARENTAL_RATING 0x55
#define LOHITUNGA_TAG_LOCAL_TIME_OFFSET 0x58
#define LOHITUNGA_TAG_TERRESTRIAL 0x5A

/* Refusals: of sections, of sheets, of packets, of descriptors and times, of the roll, of the writer of packets, of the writers of descriptors. When each
 * is given stands at the calls. */
#define LOHITUNGA_REFUSED_SHORT 1
#define LOHITUNGA_REFUSED_TABLE_ID 2
#define LOHITUNGA_REFUSED_SYNTAX_INDICATOR 3
#define LOHITUNGA_REFUSED_SECTION_LENGTH 4
#define LOHITUNGA_REFUSED_SECTION_SIZE 5
#define LOHITUNGA_REFUSED_CRC_32 6
#define LOHITUNGA_REFUSED_SECTION_NUMBER 7
#define LOHITUNGA_REFUSED_LOOP 8
#define LOHITUNGA_REFUSED_DESCRIPTOR 9
#define LOHITUNGA_REFUSED_LEFT_OVER 10
#define LOHITUNGA_REFUSED_ROOM 21
#define LOHITUNGA_REFUSED_SHEET_ENDS 22
#define LOHITUNGA_REFUSED_SHEET_TABLE_ID 23
#define LOHITUNGA_REFUSED_SHEET_FIELD 24
#define LOHITUNGA_REFUSED_SHEET_LEFT_OVER 25
#define LOHITUNGA_REFUSED_SHEET_LONG 26
#define LOHITUNGA_REFUSED_PACKET_SIZE 41
#define LOHITUNGA_REFUSED_BUFFERS 42
#define LOHITUNGA_REFUSED_RECORD 43
#define LOHITUNGA_REFUSED_SYNC_BYTE 44
#define LOHITUNGA_REFUSED_TRANSPORT_ERROR 45
#define LOHITUNGA_REFUSED_OTHER_PID 46
#define LOHITUNGA_REFUSED_SCRAMBLED 47
#define LOHITUNGA_REFUSED_ADAPTATION_FIELD 48
#define LOHITUNGA_REFUSED_POINTER 49
#define LOHITUNGA_REFUSED_TAG 61
#define LOHITUNGA_REFUSED_LAYOUT 62
#define LOHITUNGA_REFUSED_DIGIT 63
#define LOHITUNGA_REFUSED_CLOCK 64
#define LOHITUNGA_REFUSED_MJD 65
#define LOHITUNGA_REFUSED_INDEX 66
#define LOHITUNGA_REFUSED_NOT_CURRENT 81
#define LOHITUNGA_REFUSED_OTHER_SUB_TABLE 82
#define LOHITUNGA_REFUSED_NO_ROLL 83
#define LOHITUNGA_REFUSED_SEGMENT_END 84
#define LOHITUNGA_REFUSED_PID_OR_COUNTER 101
#define LOHITUNGA_REFUSED_SECTIONS 102
#define LOHITUNGA_REFUSED_PACKETS_ROOM 103
#define LOHITUNGA_REFUSED_DESCRIPTOR_ROOM 111
#define LOHITUNGA_REFUSED_FIELD 112
#define LOHITUNGA_REFUSED_DESCRIPTOR_LONG 113

/* A part of the bytes that were lent: `size` bytes from the place `start` on. What is told of no part has both 0. A call that is given a part takes any
 * two numbers: of a part that does not lie in the bytes it hands out nothing, and writes nothing. */
typedef struct lohitunga_part {
    size_t start;
    size_t size;
} lohitunga_part;

/* CRC_32.
 * Polynomial 0x04C11DB7, register preset to ones, high bit first: the register after all bytes. It is 0 after a section that ends in its own CRC_32.
 */
uint32_t lohitunga_crc32(const uint8_t *bytes, size_t size);

/* The collector: from packets of one PID to sections that the judge accepts.
 *
 * number   given when
 *   41     the packet is not 188 bytes
 *   42     the hold is under 4,096 bytes or the out room under 4,280
 *   43     the record can't stand: pid above 8,191; last above 15 and not LOHITUNGA_NO_COUNTER; rejection above 10; in_hand above 4,095; bytes in hand
 *          but no counter; the first held byte 0xFF; 3 or more held whose header declares no more than are held, or over 4,096 in all
 *   44     the first byte is not 0x47
 *   45     transport_error_indicator is 1
 *   46     the packet has another PID
 *   47     transport_scrambling_control is not 00
 *   48     adaptation_field_control is 00; or 11 with a length above 182; or 10 with a length other than 183
 *   49     the packet has payload and the start flag, and its pointer is above the payload's length minus 2 (a payload of 1 byte: always)
 */
#define LOHITUNGA_PACKET 188
#define LOHITUNGA_HOLD 4096
#define LOHITUNGA_OUT 4280
#define LOHITUNGA_NO_COUNTER 255

/* A collector's record. What is in hand stands at the start of the hold; record and hold go together from packet to packet. The six counters count the
 * payload bytes of each fate and run round past 4,294,967,295 to 0. The bytes of each section that came whole count as accepted or as rejected, as
 * lohitunga_judge judges it; of one that is rejected its number is kept, that of the last one only. It is never 1 or 5 of a section that came whole, and
 * one that is accepted leaves it.
 * The struct has no padding, and a number is rewritten only where its meaning changes. So a record can be kept and compared byte for byte: one that means
 * the same after a packet is the same bytes. */
typedef struct lohitunga_record {
    uint16_t pid;
    uint8_t last;       /* the last continuity_counter, 0 to 15; LOHITUNGA_NO_COUNTER for none */
    uint8_t mark;       /* not 0: a splice was marked, and no packet with payload was taken since; where a call sets it, it writes 1 */
    uint32_t rejection; /* the number of the section rejected last, 1 to 10; 0 for none yet; any other gets 43 */
    size_t in_hand;
    uint32_t pointer;
    uint32_t accepted;
    uint32_t broken;
    uint32_t filler;
    uint32_t skipped;
    uint32_t rejected;
} lohitunga_record;

typedef struct lohitunga_collect_answer {
    uint32_t number;   /* 0, or 41 to 49 */
    uint32_t repeated; /* 1 for a repeated packet, which alters nothing; else 0 */
    size_t sections;   /* how many sections came whole and were accepted */
    size_t size;       /* how many bytes they are: the first of the out room, end to end */
} lohitunga_collect_answer;

/* A record without counter and mark, with nothing in hand, no section rejected and zeros. Any number is taken; a pid above 8,191
 * gets 43 at each packet. */
lohitunga_record lohitunga_fresh(uint16_t pid);

/* One packet. Each section that it ends is judged, also where its beginning came with packets before, and those that are accepted are handed out; a
 * section_length above 4,093 breaks its section off, and that one is not judged. Alters the record; of the hold the first bytes, as many as are then in
 * hand; of the out room the first `size` bytes. All other bytes of either stay, also where a section is rejected. A packet that is refused or repeated
 * alters no byte of the three.
 * A packet that is not refused sets the mark by an adaptation field of at least one byte with discontinuity_indicator set. The next packet with
 * payload, the marked one itself if it has any, is never repeated, breaks off what is in hand and clears the mark. */
lohitunga_collect_answer lohitunga_collect(lohitunga_record *record, uint8_t *hold, size_t hold_size, uint8_t *out, size_t out_size,
                                           const uint8_t *packet, size_t packet_size);

/* The sections of the out room, in turn, so that no caller cuts them by a length. `rest` is at first the part that lohitunga_collect filled, of which
 * the start is 0 and the size its answer's; then what the step before left. All sections that were accepted come out, in order. */
typedef struct lohitunga_section_step {
    uint8_t found; /* 1 for a section; 0 where there is none, and then `section` is no part */
    lohitunga_part section;
    lohitunga_part rest; /* the sections behind it; where there is none, what was asked for */
} lohitunga_section_step;

lohitunga_section_step lohitunga_next_section(const uint8_t *out, size_t size, lohitunga_part rest);

/* The writer, the reverse of the collector: from sections to packets of one PID.
 *
 * number   given when
 *  101     pid above 8,191 or counter above 15
 *  102     the sizes do not cut the bytes exactly; or a section of fewer than 3 bytes, whose size is not 3 + section_length, over 4,096 bytes, or with
 *          0xFF for its first byte
 *  103     the room is under LOHITUNGA_PACKET bytes for each packet
 */
typedef struct lohitunga_packets_answer {
    uint32_t number; /* 0, or 101 to 103 */
    size_t packets;  /* how many packets: they are the first packets * LOHITUNGA_PACKET bytes of the room */
} lohitunga_packets_answer;

/* The sections stand end to end, `sizes` has the size of each, and `count` says how many there are. Nothing else of them is judged. Alters the first
 * packets * LOHITUNGA_PACKET bytes of the room; later bytes stay. No section makes no packet, and needs no room.
 * The packets have no adaptation field, and counters from `counter` on; a next call goes on with (counter + packets) % 16. The start flag stands only
 * where a section begins, a filler byte only where no section waits, or where the pointer would need the one byte left. lohitunga_collect, from a fresh
 * record on, takes them all and hands out those of the sections that lohitunga_judge accepts, all of them if it accepts each; it counts the others' bytes
 * as rejected, and breaks off nothing.
 * Each packet but the last has 183 bytes of sections or 184: a room for (sections_size + 182) / 183 packets is always large enough. */
lohitunga_packets_answer lohitunga_packets(uint16_t pid, uint8_t counter, const uint8_t *sections, size_t sections_size, const size_t *sizes, size_t count,
                                           uint8_t *room, size_t room_size);

/* Sections.
 *
 * number   given when                                                                                              place
 *    1     fewer than 3 bytes                                                                                        0
 *    2     table_id is none of NIT, SDT, BAT, EIT, TDT, TOT                                                          0
 *    3     wrong section_syntax_indicator                                                                            0
 *    4     section_length outside its table's range                                                                  0
 *    5     the bytes are not 3 + section_length                                                                      0
 *    6     the CRC_32 register is not zero after the section                                                         0
 *    7     section_number above last_section_number (NIT, SDT, BAT, EIT)                                             0
 *    8     a loop reaches past its container                                                                         of its length
 *    9     a descriptor reaches past its loop, or one byte is left                                                   of its tag
 *   10     fewer bytes left than an entry's fixed part, or bytes between loop and CRC_32                             of the first of them
 */
typedef struct lohitunga_judge_answer {
    uint32_t number; /* 0 for a section that is accepted, or 1 to 10 */
    size_t place;
} lohitunga_judge_answer;

/* What lohitunga_collect hands out was judged so: this is for sections that come from elsewhere. */
lohitunga_judge_answer lohitunga_judge(const uint8_t *section, size_t size);

typedef struct lohitunga_search_answer {
    uint32_t number; /* 0, or 1 to 10 as of lohitunga_judge */
    size_t place;    /* of 8 to 10; else 0 */
    uint32_t found;  /* 1 for a hit; 0 for none, and then the fields below are 0 */
    size_t entry;    /* 0 for the top loop, or the entry's number from 1 */
    size_t start;    /* the place of the descriptor's body; the descriptor begins two bytes before */
    size_t size;     /* the body's size */
} lohitunga_search_answer;

/* The first descriptor with the tag, in reading order. */
lohitunga_search_answer lohitunga_search(const uint8_t *section, size_t size, uint8_t tag);

/* A section by its parts.
 * lohitunga_open judges a section and tells where its loops and entries stand; lohitunga_next_entry and lohitunga_next_descriptor go over them, and hand
 * out what the table of EN 300 468 has there, all of it and in order. No call judges again. All parts are of the section, which each call is lent.
 *
 *     lohitunga_open_answer opened = lohitunga_open(section, size);
 *     lohitunga_entry_step entry = lohitunga_next_entry(section, size, opened.entries);
 *     for (; entry.found; entry = lohitunga_next_entry(section, size, entry.rest)) {
 *         lohitunga_descriptor_step step = lohitunga_next_descriptor(section, size, entry.descriptors);
 *         for (; step.found; step = lohitunga_next_descriptor(section, size, step.rest))
 *             use(section + step.descriptor.start, step.descriptor.size);
 *     }
 */

/* What stands before a section's loops and entries; 0 for what its table does not have. */
typedef struct lohitunga_head {
    uint8_t table_id;
    uint16_t network_id;          /* NIT's */
    uint16_t bouquet_id;          /* BAT's */
    uint16_t service_id;          /* EIT's */
    uint16_t transport_stream_id; /* SDT's and EIT's */
    uint16_t original_network_id; /* SDT's and EIT's */
    uint8_t version_number;
    uint8_t current_next_indicator;
    uint8_t section_number;
    uint8_t last_section_number;
} lohitunga_head;

typedef struct lohitunga_open_answer {
    uint32_t number; /* 0, or 1 to 10 as of lohitunga_judge, and then nothing is handed out */
    size_t place;    /* of 8 to 10; else 0 */
    lohitunga_head head;
    lohitunga_part utc_time; /* TDT's and TOT's, for lohitunga_time_from */
    lohitunga_part top;      /* the top loop of NIT, BAT and TOT, for lohitunga_next_descriptor */
    lohitunga_part entries;  /* of NIT, BAT, SDT and EIT, for lohitunga_next_entry */
} lohitunga_open_answer;

lohitunga_open_answer lohitunga_open(const uint8_t *section, size_t size);

/* An entry: a transport stream of NIT and BAT, a service of SDT, an event of EIT; 0 and no part for what its table does not have. */
typedef struct lohitunga_entry_step {
    uint8_t found;                /* 1 for an entry; 0 behind the last, and then the fields below but for `rest` are 0 */
    uint16_t service_id;          /* SDT's */
    uint16_t event_id;            /* EIT's */
    uint16_t transport_stream_id; /* NIT's and BAT's */
    uint16_t original_network_id; /* NIT's and BAT's */
    lohitunga_part fixed;         /* all bytes before its loop */
    lohitunga_part start_time;    /* EIT's, for lohitunga_time_from */
    lohitunga_part duration;      /* EIT's, for lohitunga_duration_from */
    lohitunga_part descriptors;   /* its loop, for lohitunga_next_descriptor */
    lohitunga_part rest;          /* the entries behind it; behind the last, what was asked for */
} lohitunga_entry_step;

lohitunga_entry_step lohitunga_next_entry(const uint8_t *section, size_t size, lohitunga_part rest);

typedef struct lohitunga_descriptor_step {
    uint8_t found; /* 1 for a descriptor; 0 behind the last, and then the fields below but for `rest` are 0 */
    uint8_t tag;
    lohitunga_part descriptor; /* from its tag on, as the readings below take it */
    lohitunga_part body;
    lohitunga_part rest; /* the descriptors behind it; behind the last, what was asked for */
} lohitunga_descriptor_step;

lohitunga_descriptor_step lohitunga_next_descriptor(const uint8_t *section, size_t size, lohitunga_part rest);

/* The walk over one loop of descriptors, which need not be a section's. */

typedef struct lohitunga_walk_answer {
    uint32_t number;     /* 0, or 9 where no descriptor can be read at the place */
    size_t place;        /* of 9: the place asked for; else 0 */
    uint32_t descriptor; /* 1 for a descriptor; 0 at the end, and then the next three fields are 0 */
    uint8_t tag;
    size_t start; /* the place of the body; the descriptor begins two bytes before */
    size_t size;  /* the body's size */
    size_t next;  /* where to ask next: behind the descriptor; at the end, and with 9, the place asked for */
} lohitunga_walk_answer;

/* What stands at the place `at` of a loop. The loop's bytes end where the loop ends; `at` may be any number. */
lohitunga_walk_answer lohitunga_walk(const uint8_t *loop, size_t size, size_t at);

/* Content sheets: a section's content, big-endian, a fixed order, each list after the two-byte number of its items. Reserved bits are in no sheet, and
 * are ones in a section made from one.
 *
 * number   given when
 *   21     the room is under 5,120 bytes for a sheet, or under 4,096 for a section
 *   22     the sheet ends early
 *   23     its table_id is none of NIT, SDT, BAT, EIT, TDT, TOT
 *   24     version above 31; current, a flag or free_CA_mode above 1; running_status above 7; section number above the last
 *   25     bytes after the sheet
 *   26     section_length would pass its table's range
 * 21 comes first, then 22 to 24 as read left to right, 25, 26. A section is refused with 21, then 1 to 10 as of lohitunga_judge.
 */
#define LOHITUNGA_SHEET_ROOM 5120
#define LOHITUNGA_SECTION_ROOM 4096

typedef struct lohitunga_sheet_answer {
    uint32_t number; /* 0, 21, or 1 to 10 */
    size_t place;    /* of 8 to 10; else 0 */
    size_t size;     /* how many bytes the sheet has: the first of the room */
} lohitunga_sheet_answer;

typedef struct lohitunga_section_answer {
    uint32_t number; /* 0, or 21 to 26 */
    size_t size;     /* how many bytes the section has: the first of the room */
} lohitunga_section_answer;

/* A section becomes a sheet. Alters the first `size` bytes of the room; later bytes stay. */
lohitunga_sheet_answer lohitunga_to_sheet(const uint8_t *section, size_t size, uint8_t *room, size_t room_size);

/* A sheet becomes a section, which lohitunga_judge accepts and lohitunga_to_sheet turns back into the same sheet. Alters the first `size` bytes of the
 * room; later bytes stay. */
lohitunga_section_answer lohitunga_to_section(const uint8_t *sheet, size_t size, uint8_t *room, size_t room_size);

/* Readings of descriptors.
 * Each takes a whole descriptor, from its tag on. Its answer holds the descriptor's fields as one struct, or one item of a list.
 *
 * number   given when                                                                                                     place
 *   61     no byte, or another tag                                                                                          0
 *   62     the length byte is missing or is not the number of bytes after it, or the body doesn't fit the layout exactly    0
 *   66     the index is past the end                                                                                        0
 *   63     a BCD digit above 9                                                                                              of the field
 *   64     an hour above 23, a minute or a second above 59                                                                  of the field
 *   65     an MJD below 15,079                                                                                              of the field
 * 61, 62 and 66 come first, in this order; then the fields from left to right, each 63, 64, 65.
 *
 * The place of a field is that of its first byte, counted from the body's first byte as 0; the body begins 2 bytes behind the tag. In a list the items in
 * front count too. MJD, hour, minute and second are a field each. With 63 `digit` tells the first digit above 9, counted in half bytes from the field's
 * start: 0 is the high half of its first byte. The half byte to look at stands in body[place + digit / 2]: it is the high half where `digit` is even, else
 * the low half. With every other number `digit` is 0.
 */

typedef struct lohitunga_text_answer {
    uint32_t number; /* 0, 61, 62 */
    lohitunga_part text;
} lohitunga_text_answer;

/* 0x40 network name: the name. */
lohitunga_text_answer lohitunga_read_network_name(const uint8_t *descriptor, size_t size);

/* 0x42 stuffing: the stuffing bytes. */
lohitunga_text_answer lohitunga_read_stuffing(const uint8_t *descriptor, size_t size);

typedef struct lohitunga_service {
    uint8_t service_type;
    lohitunga_part service_provider_name;
    lohitunga_part service_name;
} lohitunga_service;

typedef struct lohitunga_service_answer {
    uint32_t number; /* 0, 61, 62 */
    lohitunga_service service;
} lohitunga_service_answer;

/* 0x48 service. */
lohitunga_service_answer lohitunga_read_service(const uint8_t *descriptor, size_t size);

typedef struct lohitunga_short_event {
    uint32_t language_code; /* three characters, the first the highest byte */
    lohitunga_part event_name;
    lohitunga_part text;
} lohitunga_short_event;

typedef struct lohitunga_short_event_answer {
    uint32_t number; /* 0, 61, 62 */
    lohitunga_short_event short_event;
} lohitunga_short_event_answer;

/* 0x4D short event. */
lohitunga_short_event_answer lohitunga_read_short_event(const uint8_t *descriptor, size_t size);

/* How many items a list has. */
typedef struct lohitunga_count_answer {
    uint32_t number; /* 0, 61, 62 */
    size_t count;
} lohitunga_count_answer;

typedef struct lohitunga_service_list_item {
    uint16_t service_id;
    uint8_t service_type;
} lohitunga_service_list_item;

typedef struct lohitunga_service_list_answer {
    uint32_t number; /* 0, 61, 62, 66 */
    lohitunga_service_list_item item;
} lohitunga_service_list_answer;

/* 0x41 service list: how many items, and the item of an index counted from 0. */
lohitunga_count_answer lohitunga_service_list_count(const uint8_t *descriptor, size_t size);
lohitunga_service_list_answer lohitunga_read_service_list(const uint8_t *descriptor, size_t size, size_t index);

typedef struct lohitunga_content_item {
    uint8_t content_nibble_level_1;
    uint8_t content_nibble_level_2;
    uint8_t user_byte;
} lohitunga_content_item;

typedef struct lohitunga_content_answer {
    uint32_t number; /* 0, 61, 62, 66 */
    lohitunga_content_item item;
} lohitunga_content_answer;

/* 0x54 content. */
lohitunga_count_answer lohitunga_content_count(const uint8_t *descriptor, size_t size);
lohitunga_content_answer lohitunga_read_content(const uint8_t *descriptor, size_t size, size_t index);

typedef struct lohitunga_parental_rating_item {
    uint32_t country_code; /* three characters, the first the highest byte */
    uint8_t rating;
} lohitunga_parental_rating_item;

typedef struct lohitunga_parental_rating_answer {
    uint32_t number; /* 0, 61, 62, 66 */
    lohitunga_parental_rating_item item;
} lohitunga_parental_rating_answer;

/* 0x55 parental rating. */
lohitunga_count_answer lohitunga_parental_rating_count(const uint8_t *descriptor, size_t size);
lohitunga_parental_rating_answer lohitunga_read_parental_rating(const uint8_t *descriptor, size_t size, size_t index);

/* A time that was read. */
typedef struct lohitunga_moment {
    uint16_t mjd; /* the day: lohitunga_read_date gives its date */
    uint8_t hour;
    uint8_t minute;
    uint8_t second;
    uint8_t undefined; /* 1 for forty ones, and then the other fields are 0; else 0 */
} lohitunga_moment;

typedef struct lohitunga_local_time_offset_item {
    uint32_t country_code; /* three characters, the first the highest byte */
    uint8_t country_region_id;
    int16_t local_time_offset; /* in minutes, below zero behind UTC */
    lohitunga_moment time_of_change;
    int16_t next_time_offset; /* in minutes, below zero behind UTC */
} lohitunga_local_time_offset_item;

typedef struct lohitunga_local_time_offset_answer {
    uint32_t number; /* 0, 61 to 66 */
    size_t place;    /* of 63 to 65; else 0 */
    uint32_t digit;  /* of 63; else 0 */
    lohitunga_local_time_offset_item item;
} lohitunga_local_time_offset_answer;

/* 0x58 local time offset. An item begins at the place 13 * index; in it the places are: of local_time_offset, hour 4, minute 5; of time_of_change, MJD 6,
 * hour 8, minute 9, second 10; of next_time_offset, hour 11, minute 12. */
lohitunga_count_answer lohitunga_local_time_offset_count(const uint8_t *descriptor, size_t size);
lohitunga_local_time_offset_answer lohitunga_read_local_time_offset(const uint8_t *descriptor, size_t size, size_t index);

/* Frequencies count steps of 10 kHz, 100 Hz and 10 Hz. Each is a type of its own, so that none is taken for another. */
typedef struct lohitunga_satellite_frequency {
    uint32_t steps; /* of 10 kHz */
} lohitunga_satellite_frequency;

typedef struct lohitunga_cable_frequency {
    uint32_t steps; /* of 100 Hz */
} lohitunga_cable_frequency;

typedef struct lohitunga_terrestrial_frequency {
    uint32_t steps; /* of 10 Hz */
} lohitunga_terrestrial_frequency;

uint64_t lohitunga_satellite_hertz(lohitunga_satellite_frequency frequency);
uint64_t lohitunga_cable_hertz(lohitunga_cable_frequency frequency);
uint64_t lohitunga_terrestrial_hertz(lohitunga_terrestrial_frequency frequency);

typedef struct lohitunga_satellite {
    lohitunga_satellite_frequency frequency;
    uint32_t orbital_position; /* in tenths of a degree */
    uint32_t symbol_rate;      /* in steps of 100 symbols a second */
    uint8_t west_east_flag;    /* 1 in the east */
    uint8_t polarization;
    uint8_t modulation_system; /* 0 for DVB-S, 1 for DVB-S2 */
    uint8_t roll_off;          /* of DVB-S2; 0 with DVB-S, which has none */
    uint8_t modulation_type;
    uint8_t fec_inner;
} lohitunga_satellite;

typedef struct lohitunga_satellite_answer {
    uint32_t number; /* 0, 61 to 63 */
    size_t place;    /* of 63; else 0 */
    uint32_t digit;  /* of 63; else 0 */
    lohitunga_satellite satellite;
} lohitunga_satellite_answer;

/* 0x43 satellite delivery system. Places: frequency 0, orbital_position 4, symbol_rate 7. */
lohitunga_satellite_answer lohitunga_read_satellite(const uint8_t *descriptor, size_t size);

typedef struct lohitunga_cable {
    lohitunga_cable_frequency frequency;
    uint32_t symbol_rate; /* in steps of 100 symbols a second */
    uint8_t fec_outer;
    uint8_t modulation;
    uint8_t fec_inner;
} lohitunga_cable;

typedef struct lohitunga_cable_answer {
    uint32_t number; /* 0, 61 to 63 */
    size_t place;    /* of 63; else 0 */
    uint32_t digit;  /* of 63; else 0 */
    lohitunga_cable cable;
} lohitunga_cable_answer;

/* 0x44 cable delivery system. Places: frequency 0, symbol_rate 7. */
lohitunga_cable_answer lohitunga_read_cable(const uint8_t *descriptor, size_t size);

typedef struct lohitunga_terrestrial {
    lohitunga_terrestrial_frequency centre_frequency;
    uint8_t bandwidth;
    uint8_t priority;               /* 0 or 1 */
    uint8_t time_slicing_indicator; /* 0 or 1 */
    uint8_t mpe_fec_indicator;      /* 0 or 1 */
    uint8_t constellation;
    uint8_t hierarchy_information;
    uint8_t code_rate_hp_stream;
    uint8_t code_rate_lp_stream;
    uint8_t guard_interval;
    uint8_t transmission_mode;
    uint8_t other_frequency_flag; /* 0 or 1 */
} lohitunga_terrestrial;

typedef struct lohitunga_terrestrial_answer {
    uint32_t number; /* 0, 61, 62 */
    lohitunga_terrestrial terrestrial;
} lohitunga_terrestrial_answer;

/* 0x5A terrestrial delivery system. */
lohitunga_terrestrial_answer lohitunga_read_terrestrial(const uint8_t *descriptor, size_t size);

/* Times.
 * Hour, minute and second are given as they are broadcast: two BCD digits in a byte.
 * number: 63, 64 and 65 as above, the fields from left to right. A place counts in the bytes of the time, duration or offset alone:
 *
 *              MJD   hour   minute   second
 *   time         0      2        3        4
 *   duration            0        1        2
 *   offset              0        1
 *   date         0
 */
typedef struct lohitunga_time_answer {
    uint32_t number; /* 0, 63 to 65 */
    size_t place;    /* of 63 to 65; else 0 */
    uint32_t digit;  /* of 63; else 0 */
    lohitunga_moment time;
} lohitunga_time_answer;

/* An MJD of 16 bits and six digits. Forty ones are the undefined time. */
lohitunga_time_answer lohitunga_read_time(uint16_t mjd, uint8_t hour, uint8_t minute, uint8_t second);

/* The same out of its five bytes: UTC_time, or an event's start_time. Bytes that are not there count as 0; later ones are not looked at. */
lohitunga_time_answer lohitunga_time_from(const uint8_t *bytes, size_t size);

typedef struct lohitunga_duration {
    uint8_t hour; /* 0 to 99 */
    uint8_t minute;
    uint8_t second;
} lohitunga_duration;

typedef struct lohitunga_duration_answer {
    uint32_t number; /* 0, 63, 64 */
    size_t place;    /* of 63 and 64; else 0 */
    uint32_t digit;  /* of 63; else 0 */
    lohitunga_duration duration;
} lohitunga_duration_answer;

lohitunga_duration_answer lohitunga_read_duration(uint8_t hour, uint8_t minute, uint8_t second);

/* The same out of its three bytes. Bytes that are not there count as 0; later ones are not looked at. */
lohitunga_duration_answer lohitunga_duration_from(const uint8_t *bytes, size_t size);

typedef struct lohitunga_offset_answer {
    uint32_t number; /* 0, 63, 64 */
    size_t place;    /* of 63 and 64; else 0 */
    uint32_t digit;  /* of 63; else 0 */
    int16_t minutes; /* -1,439 to 1,439, below zero behind UTC */
} lohitunga_offset_answer;

/* `behind` is the polarity: 0 ahead of UTC, any other number behind it. */
lohitunga_offset_answer lohitunga_read_offset(uint8_t behind, uint8_t hour, uint8_t minute);

typedef struct lohitunga_date {
    uint16_t year;
    uint8_t month; /* from 1, January */
    uint8_t day;
} lohitunga_date;

typedef struct lohitunga_date_answer {
    uint32_t number; /* 0, 65 */
    size_t place;    /* 0: no field stands before the MJD */
    uint32_t digit;  /* 0: an MJD has no digits */
    lohitunga_date date;
} lohitunga_date_answer;

/* The Gregorian date of an MJD. */
lohitunga_date_answer lohitunga_read_date(uint16_t mjd);

/* Writers of descriptors, the reverse of the readings: fields in; tag, length, body out.
 *
 * number   given when
 *  111     the room is under LOHITUNGA_DESCRIPTOR_ROOM bytes, however short the descriptor
 *  112     a field is outside its layout: no descriptor is read so
 *  113     the body would have over 255 bytes; never of a delivery system, whose body has 11
 * 111 comes first, then 112 for any field, also one behind the 255th byte; then 113.
 *
 * Each takes what its reading gives, and of the bytes that were written its reading gives the same fields, texts with the same bytes. So what no reading
 * gives is 112: a flag above 1; a roll_off other than 0 with DVB-S; a part that does not lie in the bytes lent. What any descriptor at all is read as can be
 * written, and gives the same bytes where its reserved bits were ones, the two of the roll-off factor under DVB-S zeros, and no polarity 1 stood over two
 * offsets of zero. Alters the first `size` bytes of the room; later bytes stay. */
#define LOHITUNGA_DESCRIPTOR_ROOM 257

typedef struct lohitunga_write_answer {
    uint32_t number; /* 0, or 111 to 113 */
    size_t size;     /* how many bytes the descriptor has: the first of the room */
} lohitunga_write_answer;

/* Texts. The parts are of `bytes`: those of the descriptor that was read, or any others. A service out of two names that stand end to end:
 *
 *     static const uint8_t names[] = "OperatorNews";
 *     uint8_t room[LOHITUNGA_DESCRIPTOR_ROOM];
 *     lohitunga_service service = {0x01, {0, 8}, {8, 4}};
 *     size_t size = lohitunga_write_service(service, names, 12, room, sizeof room).size;
 */

/* 0x40 network name. */
lohitunga_write_answer lohitunga_write_network_name(lohitunga_part name, const uint8_t *bytes, size_t size, uint8_t *room, size_t room_size);

/* 0x42 stuffing: the body as given. */
lohitunga_write_answer lohitunga_write_stuffing(lohitunga_part stuffing, const uint8_t *bytes, size_t size, uint8_t *room, size_t room_size);

/* 0x48 service. */
lohitunga_write_answer lohitunga_write_service(lohitunga_service service, const uint8_t *bytes, size_t size, uint8_t *room, size_t room_size);

/* 0x4D short event: a language_code below 2^24. */
lohitunga_write_answer lohitunga_write_short_event(lohitunga_short_event short_event, const uint8_t *bytes, size_t size, uint8_t *room, size_t room_size);

/* Lists. Each item is a row of numbers, and the rows stand end to end. `count` counts numbers, not rows: one that is no multiple of the row is 112, and 0 is
 * an empty list. The function beside each writer makes the row of an item that was read. */

/* 0x41 service list, at most 85 items: service_id, service_type. */
#define LOHITUNGA_SERVICE_LIST_ROW 2
static inline void lohitunga_service_list_row(lohitunga_service_list_item item, int32_t *row) {
    row[0] = item.service_id;
    row[1] = item.service_type;
}
lohitunga_write_answer lohitunga_write_service_list(const int32_t *numbers, size_t count, uint8_t *room, size_t room_size);

/* 0x54 content, at most 127 items: content_nibble_level_1 and content_nibble_level_2, each below 16, user_byte. */
#define LOHITUNGA_CONTENT_ROW 3
static inline void lohitunga_content_row(lohitunga_content_item item, int32_t *row) {
    row[0] = item.content_nibble_level_1;
    row[1] = item.content_nibble_level_2;
    row[2] = item.user_byte;
}
lohitunga_write_answer lohitunga_write_content(const int32_t *numbers, size_t count, uint8_t *room, size_t room_size);

/* 0x55 parental rating, at most 63 items: country_code below 2^24, rating. */
#define LOHITUNGA_PARENTAL_RATING_ROW 2
static inline void lohitunga_parental_rating_row(lohitunga_parental_rating_item item, int32_t *row) {
    row[0] = (int32_t)item.country_code;
    row[1] = item.rating;
}
lohitunga_write_answer lohitunga_write_parental_rating(const int32_t *numbers, size_t count, uint8_t *room, size_t room_size);

/* 0x58 local time offset, at most 19 items: country_code below 2^24, country_region_id below 64, local_time_offset, mjd, hour, minute, second, undefined,
 * next_time_offset. The offsets are within a day, -1,439 to 1,439 minutes, and not of opposite sign: one polarity serves both, 1 where one is below zero.
 * Where `undefined` is 0 the time of change has an MJD from 15,079 to 65,535, an hour below 24, a minute and a second below 60; where it is 1 these four
 * are 0; it is no other number. */
#define LOHITUNGA_LOCAL_TIME_OFFSET_ROW 9
static inline void lohitunga_local_time_offset_row(lohitunga_local_time_offset_item item, int32_t *row) {
    row[0] = (int32_t)item.country_code;
    row[1] = item.country_region_id;
    row[2] = item.local_time_offset;
    row[3] = item.time_of_change.mjd;
    row[4] = item.time_of_change.hour;
    row[5] = item.time_of_change.minute;
    row[6] = item.time_of_change.second;
    row[7] = item.time_of_change.undefined;
    row[8] = item.next_time_offset;
}
lohitunga_write_answer lohitunga_write_local_time_offset(const int32_t *numbers, size_t count, uint8_t *room, size_t room_size);

/* Delivery systems: 13 bytes each. A frequency of a satellite or a cable is below 100,000,000 steps, an orbital_position below 10,000, a symbol_rate below
 * 10,000,000. polarization, roll_off, modulation_type, constellation, guard_interval and transmission_mode are below 4; bandwidth, hierarchy_information and
 * both code rates below 8; fec_outer and fec_inner below 16; modulation_system is 0 or 1. Every other number is inside. */

/* 0x43 satellite delivery system. */
lohitunga_write_answer lohitunga_write_satellite(lohitunga_satellite satellite, uint8_t *room, size_t room_size);

/* 0x44 cable delivery system. */
lohitunga_write_answer lohitunga_write_cable(lohitunga_cable cable, uint8_t *room, size_t room_size);

/* 0x5A terrestrial delivery system. */
lohitunga_write_answer lohitunga_write_terrestrial(lohitunga_terrestrial terrestrial, uint8_t *room, size_t room_size);

/* The roll: which sections of a sub-table have come.
 *
 * The sections of a schedule, the EIT of table_id 0x50 to 0x6F, stand in 32 segments of eight numbers, and a segment may end early. Each of its sections
 * tells its end, segment_last_section_number: the numbers behind it are left out, and none of them is missing. A section that tells another end than the
 * one before, within one version, empties its segment: of that it alone has come.
 *
 * number   given when
 *   1-10   the judge refuses the section, with the judge's place
 *   83     TDT, TOT
 *   82     another sub-table
 *   81     current_next_indicator is 0
 *   84     segment_last_section_number is below section_number, above last_section_number or in another segment (table_id 0x50 to 0x6F)
 */
typedef struct lohitunga_roll {
    uint8_t begun; /* 0 for an empty roll, whose other fields mean nothing; any other number for one that is begun */
    uint8_t table_id;
    uint16_t extension;
    uint16_t transport_stream_id; /* EIT's alone; else not looked at */
    uint16_t original_network_id; /* SDT's and EIT's; else not looked at */
    uint8_t version;
    uint8_t last;      /* last_section_number */
    uint8_t came[256]; /* came[n] is not 0: the section of number n has come; those above `last` mean nothing */
    /* Of a schedule alone; of other tables they mean nothing. Where the end of a segment is not known, its marks in `came` count as unset. */
    uint8_t known[32]; /* known[k] is not 0: end[k] is the end of segment k, that of the numbers 8k to 8k + 7 */
    uint8_t end[32];   /* an end outside its segment or above `last` counts as unknown; end[k] means nothing where known[k] is 0 */
} lohitunga_roll;

typedef struct lohitunga_roll_answer {
    uint32_t number;  /* 0, 1 to 10, 81 to 84 */
    size_t place;     /* of 8 to 10; else 0 */
    uint8_t complete; /* 1 where all sections from 0 to the last have come, of a schedule those of each segment up to its end; else 0 */
    uint8_t missing;  /* the smallest number that has not come and is not left out; 0 where complete */
} lohitunga_roll_answer;

/* A roll in which nothing has come. It takes the first section of any sub-table. */
lohitunga_roll lohitunga_roll_empty(void);

/* The answer without a section; number is 0. Of an empty roll 0 is missing, and of a schedule's segment whose end is not known its first number. A schedule is
 * complete without the section of the number `last` where its segment ends before that. */
lohitunga_roll_answer lohitunga_roll_ask(const lohitunga_roll *roll);

/* A section. Alters the roll where it is not refused: `begun`, each of `came` and each of `known` are then 0 or 1, and end[k] is 0 where known[k] is.
 * Another version or last_section_number starts it afresh: nothing has come, and no end is known. The struct has no padding. */
lohitunga_roll_answer lohitunga_roll_take(lohitunga_roll *roll, const uint8_t *section, size_t size);

#ifdef __cplusplus
}
#endif

/* The stack that a call needs at most, in bytes below the caller's stack pointer, its return address included and that of memcpy and memset left out:
 *   lohitunga_roll_take                1,320
 *   lohitunga_collect                    712
 *   lohitunga_write_content              376
 *   lohitunga_write_local_time_offset    376
 *   lohitunga_write_parental_rating      376
 *   lohitunga_write_service_list         376
 *   lohitunga_to_section                 312
 *   lohitunga_to_sheet                   312
 *   lohitunga_roll_ask                   304
 *   lohitunga_open                       264
 *   lohitunga_read_satellite             208
 *   lohitunga_search                     200
 *   lohitunga_next_entry                 184
 *   lohitunga_read_cable                 184
 *   lohitunga_read_local_time_offset     184
 *   lohitunga_read_terrestrial           184
 *   lohitunga_write_satellite            184
 *   lohitunga_write_terrestrial          184
 *   lohitunga_judge                      168
 *   lohitunga_packets                    168
 *   lohitunga_write_short_event          168
 *   lohitunga_write_service              152
 *   lohitunga_read_service               136
 *   lohitunga_crc32                       56
 *   lohitunga_write_network_name          56
 *   lohitunga_write_stuffing              56
 *   lohitunga_read_time                   40
 *   lohitunga_write_cable                 40
 *   lohitunga_time_from                   32
 *   lohitunga_next_section                24
 *   lohitunga_duration_from               16
 *   every other                            8
 */

#endif
