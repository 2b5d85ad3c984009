/*
 * A second implementation of document 01, written from document 01, requests (i), (ii), (iv), (v), (viii) and (ix) of document
 * 02, docs/DECISIONS.md and EN 300 468 alone, a byte at a time. It is the judge in the comparison with the library, so it is
 * plain before it is fast. It stands in the files second_*.c. Sentences in quotation marks are document 01's there, or
 * document 02's where it is named; where they leave a choice, docs/DECISIONS.md has what was chosen. Field layouts are
 * those of EN 300 468, the clause named at each.
 *
 * Every answer has a `number`: 0, or the number of the refusal. `place` is 0 but for 8 to 10. Of the readings that can be
 * refused with 63 to 65 the number stands in `why`, with the place of the field and that of the digit.
 */
#ifndef SECOND_H
#define SECOND_H

#include <stddef.h>
#include <stdint.h>

/* The register after the bytes: zero after a whole section. */
uint32_t second_crc(const uint8_t *bytes, size_t size);

/* Sections */

struct second_verdict { unsigned number, place; };

struct second_verdict second_judge(const uint8_t *section, size_t size);

enum { SECOND_NONE, SECOND_HIT };

struct second_found { unsigned number, place; int kind; unsigned loop; size_t at, size; };

/* The body of the first descriptor with the tag: `loop` is 0 for the top loop, or the entry's number from 1. */
struct second_found second_search(const uint8_t *section, size_t size, uint8_t tag);

enum { SECOND_END, SECOND_DESCRIPTOR };

struct second_step { unsigned number; uint64_t place; int kind; uint8_t tag; size_t at, size; uint64_t next; };

/* What a walk gives at a place of a loop, and its place afterwards. `at` is the place of the tag, `size` that of the whole. */
struct second_step second_walk(const uint8_t *loop, size_t size, uint64_t place);

/* Parts of the bytes: each call is given what is left, any two numbers, and gives what is left behind what it found */

struct second_part { uint64_t start, size; };

struct second_opened {
    unsigned number, place;
    unsigned table_id, network_id, bouquet_id, service_id, transport_stream_id, original_network_id, version, current, section, last;
    struct second_part utc_time, top, entries;
};
struct second_entry {
    int found;
    unsigned service_id, event_id, transport_stream_id, original_network_id;
    struct second_part fixed, start_time, duration, descriptors, rest;
};
struct second_descriptor { int found; uint8_t tag; struct second_part whole, body, rest; };
struct second_cut { int found; struct second_part section, rest; };

struct second_opened second_open(const uint8_t *section, size_t size);
struct second_entry second_entry(const uint8_t *section, size_t size, struct second_part rest);
struct second_descriptor second_descriptor(const uint8_t *section, size_t size, struct second_part rest);
struct second_cut second_cut(const uint8_t *room, size_t size, struct second_part rest);

/* Content sheets */

struct second_written { unsigned number, place; size_t written; };

struct second_written second_to_sheet(const uint8_t *section, size_t size, uint8_t *room, size_t room_size);
struct second_written second_to_section(const uint8_t *sheet, size_t size, uint8_t *room, size_t room_size);

/* Collector */

/* The fates that are counted, in the order of the account: name, the counter's name, the fate in words. */
#define SECOND_COUNTED(FATE) \
    FATE(POINTER, pointer, "pointer") \
    FATE(ACCEPTED, accepted, "accepted") \
    FATE(REJECTED, rejected, "rejected") \
    FATE(BROKEN, broken, "broken-off") \
    FATE(FILLER, filler, "filler") \
    FATE(SKIPPED, skipped, "skipped")

/* SECOND_POINTER and so on; what is in hand has no counter, and comes behind them. */
#define SECOND_FATE(NAME, counter, words) SECOND_##NAME,
enum { SECOND_COUNTED(SECOND_FATE) SECOND_IN_HAND, SECOND_FATES };
enum { SECOND_COUNTERS = SECOND_IN_HAND };

struct second_record {
    uint32_t pid;
    int has_counter;
    uint32_t counter;
    int mark; /* 0 or 1 */
    uint32_t rejection;
    uint64_t in_hand;
    uint32_t counters[SECOND_COUNTERS];
};

enum { SECOND_TAKEN, SECOND_REPEATED };

/* A section that came whole: where the fate of its first byte stands, its bytes in `came`, and the judge's number. */
struct second_whole { size_t at, from, size; unsigned number; };

/*
 * `fate` is that of each byte which was in hand before the packet (`before` of them), then of each payload byte of the
 * packet (`payload` of them), as they stand after it. `sections` and `bytes` are of the sections accepted; `whole` are all that
 * came whole with the packet, in reading order, and `came` has their bytes end to end.
 */
struct second_collected {
    unsigned number;
    int kind;
    unsigned sections, bytes;
    size_t before, payload, wholes, whole_bytes;
    struct second_whole whole[1 + 184 / 3];
    uint8_t came[4095 + 184], fate[4095 + 184];
};

struct second_record second_fresh(uint32_t pid);
void second_collect(struct second_collected *answer, struct second_record *record, uint8_t *hold, size_t hold_size,
                    uint8_t *out, size_t out_size, const uint8_t *packet, size_t packet_size);

/* Writer */

struct second_packets { unsigned number; size_t packets; };

struct second_packets second_packets(unsigned pid, unsigned counter, const uint8_t *sections, size_t size, const size_t *sizes,
                                     size_t count, uint8_t *room, size_t room_size);

/* Times */

/*
 * `place` is that of the field, with 63 to 65: in the bytes of a time, duration, offset or MJD; of a descriptor's field in the
 * body. `digit` is that of the first bad digit, with 63. Both are 0 with every other number, and where nothing is refused.
 */
struct second_why { unsigned number, place, digit; };

struct second_time { struct second_why why; int undefined; unsigned mjd, hour, minute, second; };
struct second_date { struct second_why why; unsigned year, month, day; };
struct second_duration { struct second_why why; unsigned hours, minutes, seconds; };
struct second_offset { struct second_why why; int minutes; };

struct second_time second_time(const uint8_t bytes[5]);
struct second_date second_date(unsigned mjd);
struct second_duration second_duration(const uint8_t bytes[3]);
struct second_offset second_offset(int behind, const uint8_t bytes[2]);

/* Typed readings: each takes a descriptor's bytes from its tag on */

struct second_text { unsigned number; size_t at, size; };                               /* 0x40, 0x42 */
struct second_listed { unsigned number, service_id, service_type; };                    /* 0x41 */
struct second_satellite {                                                               /* 0x43 */
    struct second_why why;
    uint32_t frequency;
    unsigned orbital_position, west_east_flag, polarization, modulation_system, roll_off, modulation_type;
    uint32_t symbol_rate;
    unsigned fec_inner;
};
struct second_cable {                                                                   /* 0x44 */
    struct second_why why;
    uint32_t frequency;
    unsigned fec_outer, modulation;
    uint32_t symbol_rate;
    unsigned fec_inner;
};
struct second_service { unsigned number, service_type; size_t provider_at, provider_size, name_at, name_size; }; /* 0x48 */
struct second_event { unsigned number; uint8_t language[3]; size_t name_at, name_size, text_at, text_size; };    /* 0x4D */
struct second_content { unsigned number, level_1, level_2, user_byte; };                /* 0x54 */
struct second_rating { unsigned number; uint8_t country[3]; unsigned rating; };         /* 0x55 */
struct second_local {                                                                   /* 0x58 */
    struct second_why why;
    uint8_t country[3];
    unsigned region;
    int offset;
    struct second_time change;
    int next;
};
struct second_terrestrial {                                                             /* 0x5A */
    unsigned number;
    uint32_t frequency;
    unsigned bandwidth, priority, time_slicing, mpe_fec, constellation, hierarchy, code_rate_hp, code_rate_lp;
    unsigned guard_interval, transmission_mode, other_frequency;
};

struct second_count { unsigned number; size_t count; };

struct second_count second_count(const uint8_t *bytes, size_t size, uint8_t tag, size_t item);
struct second_text second_network_name(const uint8_t *bytes, size_t size);
struct second_listed second_service_list(const uint8_t *bytes, size_t size, uint64_t index);
struct second_text second_stuffing(const uint8_t *bytes, size_t size);
struct second_satellite second_satellite(const uint8_t *bytes, size_t size);
struct second_cable second_cable(const uint8_t *bytes, size_t size);
struct second_service second_service(const uint8_t *bytes, size_t size);
struct second_event second_short_event(const uint8_t *bytes, size_t size);
struct second_content second_content(const uint8_t *bytes, size_t size, uint64_t index);
struct second_rating second_parental_rating(const uint8_t *bytes, size_t size, uint64_t index);
struct second_local second_local_time_offset(const uint8_t *bytes, size_t size, uint64_t index);
struct second_terrestrial second_terrestrial(const uint8_t *bytes, size_t size);

/* Writers of descriptors: the same fields in, and the descriptor at the start of the room */

struct second_wrote { unsigned number; size_t size; };

/* Texts: parts of the bytes lent with them, any two numbers each. */
struct second_wrote second_write_network_name(struct second_part name, const uint8_t *bytes, size_t size, uint8_t *room, size_t room_size);
struct second_wrote second_write_stuffing(struct second_part stuffing, const uint8_t *bytes, size_t size, uint8_t *room, size_t room_size);
struct second_wrote second_write_service(int64_t service_type, struct second_part provider, struct second_part name, const uint8_t *bytes, size_t size,
                                         uint8_t *room, size_t room_size);
struct second_wrote second_write_short_event(int64_t language, struct second_part name, struct second_part text, const uint8_t *bytes, size_t size,
                                             uint8_t *room, size_t room_size);

/* Lists: rows of numbers end to end, of 2, 3, 2 and 9 numbers each; `count` is that of the numbers. */
struct second_wrote second_write_service_list(const int32_t *numbers, size_t count, uint8_t *room, size_t room_size);
struct second_wrote second_write_content(const int32_t *numbers, size_t count, uint8_t *room, size_t room_size);
struct second_wrote second_write_parental_rating(const int32_t *numbers, size_t count, uint8_t *room, size_t room_size);
struct second_wrote second_write_local_time_offset(const int32_t *numbers, size_t count, uint8_t *room, size_t room_size);

/* What the reading gives; its number is not looked at. */
struct second_wrote second_write_satellite(const struct second_satellite *fields, uint8_t *room, size_t room_size);
struct second_wrote second_write_cable(const struct second_cable *fields, uint8_t *room, size_t room_size);
struct second_wrote second_write_terrestrial(const struct second_terrestrial *fields, uint8_t *room, size_t room_size);

/* Roll */

enum { SECOND_SEGMENTS = 32, SECOND_UNKNOWN = -1 };

struct second_roll {
    int empty;
    unsigned table_id, extension, transport_stream_id, original_network_id, version, last;
    uint8_t marks[256];
    int ends[SECOND_SEGMENTS]; /* segment_last_section_number of each segment, or SECOND_UNKNOWN */
};

enum { SECOND_MISSING, SECOND_COMPLETE };

struct second_taken { unsigned number, place; int kind; unsigned missing; };

struct second_taken second_ask(const struct second_roll *roll);
struct second_taken second_take(struct second_roll *roll, const uint8_t *section, size_t size);

#endif
