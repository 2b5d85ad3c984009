/*
 * Descriptors written, request (iv) of document 02: fields in range and outside it, each call compared, and what was written is read
 * back; and the other way round, descriptors that are read and written again.
 */
#include "fields.h"
#include "kinds.h"
#include "lohitunga.h"
#include "second.h"
#include "tally.h"

#include <string.h>

enum { ROOM_MOST = 4096 };

static void prepare_writers(void)
{
    for (const struct writer *w = writers; w < writers + COUNT(writers); w++) {
        must_meet(w->name, w->form == SYSTEM ? "0 111 112" : "0 111 112 113");
        for (unsigned i = 0; i < w->field_count; i++)
            if (can_be_outside(&w->fields[i]))
                must_meet(w->why, w->fields[i].name);
        if (w->form == TEXTS)
            must_meet(w->why, "past-the-bytes begins-past-them wraps-round");
        if (w->form == LIST) {
            must_meet(w->name, "no-item one-less most-items one-more");
            must_meet(w->why, "no-whole-row behind-byte-255");
        }
    }
    must_meet("112, satellite", "roll_off-of-DVB-S");
    must_meet("112, local offset", "opposite-signs beside-undefined");
    must_meet("write satellite", "DVB-S DVB-S2");
    must_meet("offsets written", "0-and-0 0-and-below below-and-0 below-and-below 0-and-above above-and-0 above-and-above");
    must_meet("changes written", "defined undefined");
    must_meet("rooms of", "0 256 257 more");
    must_meet("bodies of", "0 254 255 256 257");
    /* "in that order": where two numbers apply, the first is given. */
    must_meet("111 where there is", "112 113");
    must_meet("112 where there is", "113");
    must_meet("written again", "0x40 0x41 0x42 0x43 0x44 0x48 0x4D 0x54 0x55 0x58 0x5A");
    must_meet("the same again", "0x40 0x41 0x42 0x43 0x44 0x48 0x4D 0x54 0x55 0x58 0x5A");
    must_meet("a reserved bit", "0x43 0x44 0x58 0x5A");
    must_meet("a polarity", "over-zeros");
}

/* Both writers */

static lohitunga_satellite satellite_of(const long long *f)
{
    return (lohitunga_satellite){{(uint32_t)f[0]}, (uint32_t)f[1], (uint32_t)f[2], (uint8_t)f[3], (uint8_t)f[4], (uint8_t)f[5], (uint8_t)f[6],
                                 (uint8_t)f[7], (uint8_t)f[8]};
}

static lohitunga_cable cable_of(const long long *f)
{
    return (lohitunga_cable){{(uint32_t)f[0]}, (uint32_t)f[1], (uint8_t)f[2], (uint8_t)f[3], (uint8_t)f[4]};
}

static lohitunga_terrestrial terrestrial_of(const long long *f)
{
    return (lohitunga_terrestrial){{(uint32_t)f[0]}, (uint8_t)f[1], (uint8_t)f[2], (uint8_t)f[3], (uint8_t)f[4], (uint8_t)f[5], (uint8_t)f[6],
                                   (uint8_t)f[7], (uint8_t)f[8], (uint8_t)f[9], (uint8_t)f[10], (uint8_t)f[11]};
}

static lohitunga_write_answer list_by_library(uint8_t tag, const int32_t *numbers, size_t count, uint8_t *room, size_t n)
{
    switch (tag) {
    case 0x41: return lohitunga_write_service_list(numbers, count, room, n);
    case 0x54: return lohitunga_write_content(numbers, count, room, n);
    case 0x55: return lohitunga_write_parental_rating(numbers, count, room, n);
    default: return lohitunga_write_local_time_offset(numbers, count, room, n);
    }
}

static lohitunga_write_answer by_library(const struct given *g, const void *lent, uint8_t *room, size_t n)
{
    const lohitunga_part *p = g->parts;
    const long long *f = g->fields;
    switch (g->w->tag) {
    case 0x40: return lohitunga_write_network_name(p[0], lent, g->size, room, n);
    case 0x42: return lohitunga_write_stuffing(p[0], lent, g->size, room, n);
    case 0x43: return lohitunga_write_satellite(satellite_of(f), room, n);
    case 0x44: return lohitunga_write_cable(cable_of(f), room, n);
    case 0x48: return lohitunga_write_service((lohitunga_service){(uint8_t)f[0], p[0], p[1]}, lent, g->size, room, n);
    case 0x4D: return lohitunga_write_short_event((lohitunga_short_event){(uint32_t)f[0], p[0], p[1]}, lent, g->size, room, n);
    case 0x5A: return lohitunga_write_terrestrial(terrestrial_of(f), room, n);
    default: return list_by_library(g->w->tag, lent, g->count, room, n);
    }
}

static struct second_wrote system_by_second(uint8_t tag, const long long *values, uint8_t *room, size_t n)
{
    uint32_t f[FIELDS_MOST];
    for (unsigned i = 0; i < FIELDS_MOST; i++)
        f[i] = (uint32_t)values[i];
    struct second_satellite s = {.frequency = f[0], .orbital_position = f[1], .symbol_rate = f[2], .west_east_flag = f[3], .polarization = f[4],
                                 .modulation_system = f[5], .roll_off = f[6], .modulation_type = f[7], .fec_inner = f[8]};
    struct second_cable c = {.frequency = f[0], .symbol_rate = f[1], .fec_outer = f[2], .modulation = f[3], .fec_inner = f[4]};
    struct second_terrestrial t = {.frequency = f[0], .bandwidth = f[1], .priority = f[2], .time_slicing = f[3], .mpe_fec = f[4],
                                   .constellation = f[5], .hierarchy = f[6], .code_rate_hp = f[7], .code_rate_lp = f[8],
                                   .guard_interval = f[9], .transmission_mode = f[10], .other_frequency = f[11]};
    return tag == 0x43   ? second_write_satellite(&s, room, n)
           : tag == 0x44 ? second_write_cable(&c, room, n)
                         : second_write_terrestrial(&t, room, n);
}

static struct second_wrote by_second(const struct given *g, uint8_t *room, size_t n)
{
    struct second_part p = {g->parts[0].start, g->parts[0].size}, q = {g->parts[1].start, g->parts[1].size};
    switch (g->w->tag) {
    case 0x40: return second_write_network_name(p, g->bytes, g->size, room, n);
    case 0x41: return second_write_service_list(g->numbers, g->count, room, n);
    case 0x42: return second_write_stuffing(p, g->bytes, g->size, room, n);
    case 0x48: return second_write_service(g->fields[0], p, q, g->bytes, g->size, room, n);
    case 0x4D: return second_write_short_event(g->fields[0], p, q, g->bytes, g->size, room, n);
    case 0x54: return second_write_content(g->numbers, g->count, room, n);
    case 0x55: return second_write_parental_rating(g->numbers, g->count, room, n);
    case 0x58: return second_write_local_time_offset(g->numbers, g->count, room, n);
    default: return system_by_second(g->w->tag, g->fields, room, n);
    }
}

/* One call */

static uint8_t room_before[ROOM_MOST], room_second[ROOM_MOST];

static void tell(const struct given *g, size_t room_size)
{
    call_number("room", (long long)room_size);
    if (g->w->form == LIST) {
        call_number("numbers", (long long)g->count);
        call_piece("numbers", g->numbers, g->count * sizeof *g->numbers);
        return;
    }
    for (unsigned i = 0; i < g->w->field_count; i++)
        call_number(g->w->fields[i].name, g->fields[i]);
    for (unsigned i = 0; i < g->w->texts; i++) {
        call_number(i == 0 ? "the first part's start" : "the second part's start", (long long)g->parts[i].start);
        call_number(i == 0 ? "the first part's size" : "the second part's size", (long long)g->parts[i].size);
    }
    if (g->w->form == TEXTS)
        call_piece("bytes", g->bytes, g->size);
}

static void compare_at(const struct given *g, size_t room_size, enum placing p, const struct second_wrote *s)
{
    int list = g->w->form == LIST;
    call_begins(g->w->name, p);
    tell(g, room_size);
    const void *lent = list ? room_lend(&rooms.input, g->numbers, g->count * sizeof *g->numbers, p, _Alignof(int32_t)) : lend(g->bytes, g->size, p);
    uint8_t *room = room_lend(&rooms.out, room_before, room_size, p, 1);
    lohitunga_write_answer a = by_library(g, lent, room, room_size);
    long long library[] = {a.number, (long long)a.size};
    long long second[] = {s->number, (long long)s->size};
    SAME("number size", library, second);
    same_bytes("the room", room_now(&rooms.out), room_second, room_size);
    must(room_back(&rooms.out), "the canaries beside the room stand");
    back();
}

/* The descriptor is then in room_second. */
static struct second_wrote second_first(const struct given *g, size_t room_size)
{
    memcpy(room_second, room_before, room_size);
    return by_second(g, room_second, room_size);
}

/* Reading back: "Reading back gives the fields" */

static void same_field(const char *name, long long read, long long given) { as_given(name, &read, &given, 1); }

static size_t count_read(uint8_t tag, const uint8_t *b, size_t n)
{
    switch (tag) {
    case 0x41: return lohitunga_service_list_count(b, n).count;
    case 0x54: return lohitunga_content_count(b, n).count;
    case 0x55: return lohitunga_parental_rating_count(b, n).count;
    default: return lohitunga_local_time_offset_count(b, n).count;
    }
}

/* An item of a list as a row, by the header's own functions; the reading's number. */
static unsigned row_read(uint8_t tag, const uint8_t *b, size_t n, size_t index, int32_t *row)
{
    lohitunga_service_list_answer s;
    lohitunga_content_answer c;
    lohitunga_parental_rating_answer r;
    lohitunga_local_time_offset_answer l;
    switch (tag) {
    case 0x41:
        s = lohitunga_read_service_list(b, n, index);
        lohitunga_service_list_row(s.item, row);
        return s.number;
    case 0x54:
        c = lohitunga_read_content(b, n, index);
        lohitunga_content_row(c.item, row);
        return c.number;
    case 0x55:
        r = lohitunga_read_parental_rating(b, n, index);
        lohitunga_parental_rating_row(r.item, row);
        return r.number;
    default:
        l = lohitunga_read_local_time_offset(b, n, index);
        lohitunga_local_time_offset_row(l.item, row);
        return l.number;
    }
}

static void rows_back(const struct given *g, const uint8_t *b, size_t n)
{
    unsigned each = g->w->field_count;
    int32_t row[FIELDS_MOST];
    same_field("items", (long long)count_read(g->w->tag, b, n), (long long)(g->count / each));
    for (size_t i = 0; i < g->count / each; i++) {
        same_field("number", row_read(g->w->tag, b, n, i, row), 0);
        for (unsigned k = 0; k < each; k++)
            same_field(g->w->fields[k].name, row[k], g->numbers[i * each + k]);
    }
}

static void text_back(const char *name, const uint8_t *b, lohitunga_part read, const struct given *g, lohitunga_part given)
{
    same_field(name, (long long)read.size, (long long)given.size);
    as_given_bytes(name, b + read.start, g->bytes + given.start, given.size);
}

/* The fields of a service, an event or a delivery system, in the order of their table; the reading's number. */
static unsigned fields_read(uint8_t tag, const uint8_t *b, size_t n, long long *to)
{
    lohitunga_satellite_answer s = lohitunga_read_satellite(b, n);
    lohitunga_cable_answer c = lohitunga_read_cable(b, n);
    lohitunga_terrestrial_answer t = lohitunga_read_terrestrial(b, n);
    lohitunga_satellite v = s.satellite;
    lohitunga_terrestrial w = t.terrestrial;
    long long satellite[] = {v.frequency.steps, v.orbital_position, v.symbol_rate, v.west_east_flag, v.polarization, v.modulation_system, v.roll_off,
                             v.modulation_type, v.fec_inner};
    long long cable[] = {c.cable.frequency.steps, c.cable.symbol_rate, c.cable.fec_outer, c.cable.modulation, c.cable.fec_inner};
    long long terrestrial[] = {w.centre_frequency.steps, w.bandwidth, w.priority, w.time_slicing_indicator, w.mpe_fec_indicator, w.constellation,
                               w.hierarchy_information, w.code_rate_hp_stream, w.code_rate_lp_stream, w.guard_interval, w.transmission_mode,
                               w.other_frequency_flag};
    switch (tag) {
    case 0x43: memcpy(to, satellite, sizeof satellite); return s.number;
    case 0x44: memcpy(to, cable, sizeof cable); return c.number;
    case 0x48: *to = lohitunga_read_service(b, n).service.service_type; return lohitunga_read_service(b, n).number;
    case 0x4D: *to = lohitunga_read_short_event(b, n).short_event.language_code; return lohitunga_read_short_event(b, n).number;
    default: memcpy(to, terrestrial, sizeof terrestrial); return t.number;
    }
}

static void read_back(const struct given *g, const uint8_t *b, size_t n)
{
    uint8_t tag = g->w->tag;
    long long fields[FIELDS_MOST];
    if (g->w->form == LIST)
        rows_back(g, b, n);
    if (tag == 0x40 || tag == 0x42) {
        lohitunga_text_answer t = tag == 0x40 ? lohitunga_read_network_name(b, n) : lohitunga_read_stuffing(b, n);
        same_field("number", t.number, 0);
        text_back("text", b, t.text, g, g->parts[0]);
    } else if (g->w->form != LIST) {
        same_field("number", fields_read(tag, b, n, fields), 0);
        for (unsigned i = 0; i < g->w->field_count; i++)
            same_field(g->w->fields[i].name, fields[i], g->fields[i]);
    }
    if (tag == 0x48) {
        lohitunga_service s = lohitunga_read_service(b, n).service;
        text_back("service_provider_name", b, s.service_provider_name, g, g->parts[0]);
        text_back("service_name", b, s.service_name, g, g->parts[1]);
    }
    if (tag == 0x4D) {
        lohitunga_short_event e = lohitunga_read_short_event(b, n).short_event;
        text_back("event_name", b, e.event_name, g, g->parts[0]);
        text_back("text", b, e.text, g, g->parts[1]);
    }
}

/* What was met */

static const char *side(int32_t offset) { return offset == 0 ? "0" : offset < 0 ? "below" : "above"; }

static void rows_met(const struct given *g)
{
    size_t items = g->count / g->w->field_count, most = most_items(g->w);
    if (items == 0 || (items >= most - 1 && items <= most + 1))
        met_word(g->w->name, items == 0 ? "no-item" : items < most ? "one-less" : items == most ? "most-items" : "one-more", 1);
    if (g->w->fields != of_local || items > most)
        return;
    for (const int32_t *row = g->numbers; row < g->numbers + g->count; row += g->w->field_count) {
        char word[24];
        strcpy(word, side(row[OFFSET]));
        strcat(word, "-and-");
        strcat(word, side(row[NEXT]));
        met_word("offsets written", word, 1);
        met_word("changes written", row[UNDEFINED] ? "undefined" : "defined", 1);
    }
}

static void met(const struct given *g, unsigned number, const char *why, size_t room_size)
{
    size_t body = body_of(g);
    int is_long = body > BODY_MOST;
    met_number(g->w->name, number);
    met_word("rooms of", room_size == 0 ? "0" : room_size == 256 ? "256" : room_size == 257 ? "257" : room_size > 257 ? "more" : "fewer", 1);
    if (number == 111 && (why || is_long))
        met_number("111 where there is", why ? 112 : 113);
    if (number == 111)
        return;
    if (number == 112) {
        met_word(g->w->why, why, 1);
        if (g->behind)
            met_word(g->w->why, "behind-byte-255", 1);
        met_word("112 where there is", "113", is_long);
        return;
    }
    if (body == 0 || (body >= 254 && body <= 257))
        met_number("bodies of", (unsigned)body);
    if (g->w->form == LIST)
        rows_met(g);
    if (g->w->fields == of_satellite)
        met_word(g->w->name, g->fields[MODULATION_SYSTEM] ? "DVB-S2" : "DVB-S", 1);
}

/* Reading, and writing what was read */

/* The reserved bits of a body's byte, and what they are written as. */
static uint8_t reserved(uint8_t tag, const uint8_t *body, size_t i, uint8_t *meant)
{
    *meant = tag == 0x43 ? 0 : 0xFF;
    switch (tag) {
    case 0x43: return i == 6 && !(body[6] & 0x04) ? 0x18 : 0;
    case 0x44: return i == 4 ? 0xFF : i == 5 ? 0xF0 : 0;
    case 0x58: return i % 13 == 3 ? 0x02 : 0;
    case 0x5A: return i == 4 ? 0x03 : i >= 7 ? 0xFF : 0;
    default: return 0;
    }
}

static void put_reserved_right(uint8_t tag, uint8_t *body, size_t size)
{
    for (size_t i = 0; i < size; i++) {
        uint8_t meant, bits = reserved(tag, body, i, &meant);
        body[i] = (uint8_t)((body[i] & ~bits) | (meant & bits));
    }
}

static int polarity_over_zeros(const uint8_t *item) { return item[3] % 2 == 1 && !item[4] && !item[5] && !item[11] && !item[12]; }

/* One of the reserved bits turned, if there is one. */
static void turn_reserved(struct dice *d, uint8_t tag, uint8_t *body, size_t size)
{
    uint8_t meant, bits, turned = 0;
    size_t at = 0, seen = 0;
    for (size_t i = 0; i < size; i++) {
        bits = reserved(tag, body, i, &meant);
        for (unsigned k = 1; k < 256; k *= 2)
            if (bits & k && one_in(d, (unsigned)++seen))
                at = i, turned = (uint8_t)k;
    }
    if (seen > 0)
        body[at] ^= turned;
}

/* A descriptor, which can be read or not: with any reserved bits, with right ones, or with one wrong; a polarity over two zeros comes often. */
static size_t make_for_again(struct dice *d, uint8_t tag, uint8_t *to)
{
    size_t n = one_in(d, 4) ? make_reading_case(d, tag, to) : make_typed(d, tag, to, 0);
    uint8_t *body = to + 2;
    if (n < 13)
        return n;
    for (size_t i = 0; tag == 0x58 && i + 13 <= n - 2; i += 13)
        if (one_in(d, 8)) {
            body[i + 4] = body[i + 5] = body[i + 11] = body[i + 12] = 0;
            body[i + 3] = (uint8_t)(body[i + 3] / 2 * 2 + below(d, 2));
        }
    if (one_in(d, 6))
        return n;
    put_reserved_right(tag, body, n - 2);
    if (one_in(d, 2))
        turn_reserved(d, tag, body, n - 2);
    return n;
}

static int list_again(const struct writer *w, const uint8_t *b, size_t n, uint8_t *room, lohitunga_write_answer *a)
{
    static int32_t numbers[NUMBERS_MOST];
    int32_t row[FIELDS_MOST];
    size_t items = count_read(w->tag, b, n);
    if (row_read(w->tag, b, n, items, row) != 66)
        return 0;
    for (size_t i = 0; i < items; i++)
        if (row_read(w->tag, b, n, i, numbers + i * w->field_count))
            return 0;
    *a = list_by_library(w->tag, numbers, items * w->field_count, room, LOHITUNGA_DESCRIPTOR_ROOM);
    return 1;
}

/* What the library reads in the bytes it writes; 0 where it refuses to read them. */
#define AGAIN(reading, writing) \
    do { \
        __auto_type r = reading; \
        if (r.number == 0) \
            *a = writing; \
        return r.number == 0; \
    } while (0)

static int again(const struct writer *w, const uint8_t *b, size_t n, uint8_t *room, lohitunga_write_answer *a)
{
    const size_t most = LOHITUNGA_DESCRIPTOR_ROOM;
    switch (w->tag) {
    case 0x40: AGAIN(lohitunga_read_network_name(b, n), lohitunga_write_network_name(r.text, b, n, room, most));
    case 0x42: AGAIN(lohitunga_read_stuffing(b, n), lohitunga_write_stuffing(r.text, b, n, room, most));
    case 0x43: AGAIN(lohitunga_read_satellite(b, n), lohitunga_write_satellite(r.satellite, room, most));
    case 0x44: AGAIN(lohitunga_read_cable(b, n), lohitunga_write_cable(r.cable, room, most));
    case 0x48: AGAIN(lohitunga_read_service(b, n), lohitunga_write_service(r.service, b, n, room, most));
    case 0x4D: AGAIN(lohitunga_read_short_event(b, n), lohitunga_write_short_event(r.short_event, b, n, room, most));
    case 0x5A: AGAIN(lohitunga_read_terrestrial(b, n), lohitunga_write_terrestrial(r.terrestrial, room, most));
    default: return list_again(w, b, n, room, a);
    }
}

/*
 * "writing what was read gives the bytes where reserved bits were ones (satellite's two under modulation_system 0: zeros) and no
 * polarity 1 stood over two zero offsets": else it gives them with these put right.
 */
static void write_again(struct dice *d, const struct writer *w)
{
    static const char *const words[11] = {"0x40", "0x41", "0x42", "0x43", "0x44", "0x48", "0x4D", "0x54", "0x55", "0x58", "0x5A"};
    static uint8_t bytes[512], right[512], room[LOHITUNGA_DESCRIPTOR_ROOM];
    size_t n = make_for_again(d, w->tag, bytes), zeros = 0;
    const char *word = words[w - writers];
    lohitunga_write_answer a;
    call_begins("written again", AT_END);
    call_piece("descriptor", bytes, n);
    if (!again(w, bytes, n, room, &a))
        return;
    memcpy(right, bytes, n);
    put_reserved_right(w->tag, right + 2, n - 2);
    if (memcmp(right, bytes, n) != 0)
        met_word("a reserved bit", word, 1);
    for (uint8_t *item = right + 2; w->tag == 0x58 && item < right + n; item += 13)
        if (polarity_over_zeros(item))
            item[3]--, zeros++;
    met_word("a polarity", "over-zeros", zeros);
    must(a.number == 0 && a.size == n, "what was read can be written, and is as long");
    as_given_bytes("the descriptor that was read", room, right, n);
    met_word("written again", word, 1);
    met_word("the same again", word, memcmp(room, bytes, n) == 0);
}

/* What is gone through whole */

static void swept(const struct given *g)
{
    struct second_wrote s = second_first(g, LOHITUNGA_DESCRIPTOR_ROOM);
    compare_at(g, LOHITUNGA_DESCRIPTOR_ROOM, AT_END, &s);
    if (s.number == 0)
        read_back(g, room_second, s.size);
}

/* Every byte in each field of a delivery system that is one, beside other fields in range; every orbital position, and each power of ten. */
static void sweep_systems(struct dice *d, struct given *g)
{
    for (unsigned i = 0; i < g->w->field_count; i++) {
        const struct field *f = &g->w->fields[i];
        make_fields(d, g);
        for (long long v = 0; f->c_most == UINT8_MAX && v <= UINT8_MAX; v++) {
            g->fields[i] = v;
            swept(g);
        }
        for (long long v = 1; f->c_most > UINT8_MAX && v < UINT32_MAX; v *= 10)
            for (int k = -1; k < 2; k++) {
                g->fields[i] = v + k;
                swept(g);
            }
        for (long long v = 0; f->most == 9999 && v <= f->most + 1; v++) {
            g->fields[i] = v;
            swept(g);
        }
    }
}

/* Every size of a name, and of two texts each pair about the longest body. */
static void sweep_texts(struct given *g)
{
    size_t most = BODY_MOST - g->w->bytes;
    g->fields[0] = 0x20;
    g->size = 600;
    for (size_t i = 0; i < g->size; i++)
        g->bytes[i] = (uint8_t)(i * 7 + 1);
    for (size_t first = 0; first <= BODY_MOST + 2; first++)
        for (size_t body = g->w->texts > 1 ? most - 1 : first; body <= (g->w->texts > 1 ? most + 2 : first); body++) {
            g->parts[0] = (lohitunga_part){300 - first, first};
            g->parts[1] = (lohitunga_part){300, body < first ? 0 : body - first};
            swept(g);
        }
}

/* Every count of numbers up to two rows too many. */
static void sweep_lists(struct dice *d, struct given *g)
{
    size_t each = g->w->field_count;
    for (size_t i = 0; i <= most_items(g->w) + 1; i++)
        make_row(d, g->w, g->numbers + i * each);
    for (g->count = 0; g->count <= (most_items(g->w) + 2) * each; g->count++)
        swept(g);
}

/* Every day, hour, minute and second of a change; every offset, beside 0, beside itself and beside the opposite one. */
static void sweep_offsets(struct given *g)
{
    static const int32_t row[] = {0x474252, 1, 60, 0xC079, 12, 45, 0, 0, 120};
    g->count = COUNT(row);
    for (unsigned k = MJD; k <= SECOND; k++) {
        memcpy(g->numbers, row, sizeof row);
        for (int32_t v = -2; v <= of_local[k].most + 2; v++) {
            g->numbers[k] = v;
            swept(g);
        }
    }
    memcpy(g->numbers, row, sizeof row);
    for (int32_t v = -1442; v <= 1442; v++) {
        const int32_t pairs[4][2] = {{v, 0}, {0, v}, {v, v}, {v, -v}};
        for (int i = 0; i < 4; i++) {
            g->numbers[OFFSET] = pairs[i][0];
            g->numbers[NEXT] = pairs[i][1];
            swept(g);
        }
    }
}

static void all_writings(void)
{
    static struct given g;
    struct dice d = dice_of(0, 0, 0);
    fill(&d, room_before, sizeof room_before);
    for (g.w = writers; g.w < writers + COUNT(writers); g.w++) {
        g.size = g.count = 0;
        if (g.w->form == SYSTEM)
            sweep_systems(&d, &g);
        if (g.w->form == TEXTS)
            sweep_texts(&g);
        if (g.w->form == LIST)
            sweep_lists(&d, &g);
        if (g.w->fields == of_local)
            sweep_offsets(&g);
    }
}

/* By the dice */

static size_t any_room(struct dice *d)
{
    switch (below(d, 20)) {
    case 0: return 0;
    case 1: return LOHITUNGA_DESCRIPTOR_ROOM - 1;
    case 2: return below(d, LOHITUNGA_DESCRIPTOR_ROOM);
    case 3: return LOHITUNGA_DESCRIPTOR_ROOM + 1;
    case 4: return between(d, LOHITUNGA_DESCRIPTOR_ROOM, ROOM_MOST);
    default: return LOHITUNGA_DESCRIPTOR_ROOM;
    }
}

static void one_writing(struct dice *d)
{
    static struct given g;
    const struct writer *w = &writers[one_in(d, 4) ? 9 : below(d, COUNT(writers))];
    if (one_in(d, 64))
        fill(d, room_before, sizeof room_before);
    make_given(d, &g, w);
    const char *why = one_in(d, 3) ? spoil_given(d, &g) : NULL;
    size_t room_size = any_room(d);
    struct second_wrote s = second_first(&g, room_size);
    for (enum placing p = 0; p < PLACINGS; p++)
        compare_at(&g, room_size, p, &s);
    /* the ranges of fields.c, and what was put outside them, tell the number once more */
    must(s.number == (room_size < 257 ? 111u : why ? 112u : body_of(&g) > BODY_MOST ? 113u : 0u), "the ranges of the fields tell the same number");
    met(&g, s.number, why, room_size);
    if (s.number == 0)
        read_back(&g, room_second, s.size);
    write_again(d, w);
}

const struct kind kind_writers = {"writers", 1, prepare_writers, all_writings, one_writing};
