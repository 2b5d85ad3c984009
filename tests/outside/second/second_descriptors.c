#include "second.h"
#include "second_shared.h"

#include <string.h>

/* "Typed readings" */

/*
 * "61 no byte, or tag differs; 62 length byte missing or not the number of bytes after it". What the length byte says is
 * written, so that the body runs from byte 2 on. Document 02: a refused field is told with its place "in the body".
 */
static unsigned frame(const uint8_t *b, size_t size, uint8_t tag, size_t *body)
{
    if (size == 0 || b[0] != tag)
        return 61;
    if (size < 2 || b[1] != size - 2)
        return 62;
    *body = b[1];
    return 0;
}

/* "62 .. body doesn't fit the layout exactly": a body of `size` bytes and no other. */
static unsigned fixed_body(const uint8_t *b, size_t size, uint8_t tag, size_t wanted)
{
    size_t body;
    unsigned refusal = frame(b, size, tag, &body);
    return refusal ? refusal : body != wanted ? 62 : 0;
}

/* A list of items of `item` bytes each; the place of the one asked for is written. "66 index past the end" */
static unsigned listed(const uint8_t *b, size_t size, uint8_t tag, size_t item, uint64_t index, const uint8_t **at)
{
    size_t body;
    unsigned refusal = frame(b, size, tag, &body);
    if (refusal)
        return refusal;
    if (body % item != 0)
        return 62;
    if (index >= body / item)
        return 66;
    *at = b + 2 + index * item;
    return 0;
}

/* How many items of `item` bytes the descriptor has. */
struct second_count second_count(const uint8_t *b, size_t size, uint8_t tag, size_t item)
{
    struct second_count c = {0, 0};
    size_t body;
    c.number = frame(b, size, tag, &body);
    if (!c.number && body % item != 0)
        c.number = 62;
    if (!c.number)
        c.count = body / item;
    return c;
}

/* 6.2.27, network_name_descriptor: all the body is the name. */
struct second_text second_network_name(const uint8_t *b, size_t size)
{
    struct second_text t = {0, 2, 0};
    t.number = frame(b, size, 0x40, &t.size);
    return t;
}

/* 6.2.40, stuffing_descriptor: all the body is stuffing. */
struct second_text second_stuffing(const uint8_t *b, size_t size)
{
    struct second_text t = {0, 2, 0};
    t.number = frame(b, size, 0x42, &t.size);
    return t;
}

/* 6.2.35, service_list_descriptor: service_id 16, service_type 8. */
struct second_listed second_service_list(const uint8_t *b, size_t size, uint64_t index)
{
    struct second_listed l;
    const uint8_t *i;
    memset(&l, 0, sizeof l);
    l.number = listed(b, size, 0x41, 3, index, &i);
    if (l.number)
        return l;
    l.service_id = two(i);
    l.service_type = i[2];
    return l;
}

/* 6.2.13.2, satellite_delivery_system_descriptor. */
struct second_satellite second_satellite(const uint8_t *b, size_t size)
{
    struct second_satellite s;
    uint32_t orbital;
    memset(&s, 0, sizeof s);
    s.why.number = fixed_body(b, size, 0x43, 11);
    if (s.why.number)
        return s;
    /* frequency 32 (8 digits), orbital_position 16 (4 digits) */
    s.why = bcd(b + 2, b + 2, 8, &s.frequency);
    if (s.why.number)
        return s;
    s.why = bcd(b + 2, b + 6, 4, &orbital);
    if (s.why.number)
        return s;
    s.orbital_position = orbital;
    /* west_east_flag 1, polarization 2, roll_off 2 (modulation_system 1) or two reserved bits, modulation_system 1, modulation_type 2 */
    s.west_east_flag = b[8] / 128;
    s.polarization = b[8] / 32 % 4;
    s.modulation_system = b[8] / 4 % 2;
    s.roll_off = s.modulation_system == 1 ? b[8] / 8 % 4 : 0;
    s.modulation_type = b[8] % 4;
    /* symbol_rate 28 (7 digits), FEC_inner 4 */
    s.why = bcd(b + 2, b + 9, 7, &s.symbol_rate);
    s.fec_inner = b[12] % 16;
    return s;
}

/* 6.2.13.1, cable_delivery_system_descriptor. */
struct second_cable second_cable(const uint8_t *b, size_t size)
{
    struct second_cable c;
    memset(&c, 0, sizeof c);
    c.why.number = fixed_body(b, size, 0x44, 11);
    if (c.why.number)
        return c;
    /* frequency 32 (8 digits), reserved_future_use 12, FEC_outer 4, modulation 8, symbol_rate 28 (7 digits), FEC_inner 4 */
    c.why = bcd(b + 2, b + 2, 8, &c.frequency);
    if (c.why.number)
        return c;
    c.fec_outer = b[7] % 16;
    c.modulation = b[8];
    c.why = bcd(b + 2, b + 9, 7, &c.symbol_rate);
    c.fec_inner = b[12] % 16;
    return c;
}

/* Two texts, each after its length byte, the first length at `at`; they must end where the bytes end. */
static unsigned two_texts(const uint8_t *b, size_t size, size_t at, size_t *at_1, size_t *size_1, size_t *at_2, size_t *size_2)
{
    if (at >= size)
        return 62;
    *at_1 = at + 1;
    *size_1 = b[at];
    at = *at_1 + *size_1;
    if (at >= size)
        return 62;
    *at_2 = at + 1;
    *size_2 = b[at];
    return *at_2 + *size_2 == size ? 0 : 62;
}

/* 6.2.33, service_descriptor: service_type 8, provider after its length, name after its length. */
struct second_service second_service(const uint8_t *b, size_t size)
{
    struct second_service s;
    size_t body;
    memset(&s, 0, sizeof s);
    s.number = frame(b, size, 0x48, &body);
    if (!s.number)
        s.number = two_texts(b, size, 3, &s.provider_at, &s.provider_size, &s.name_at, &s.name_size);
    if (!s.number)
        s.service_type = b[2];
    return s;
}

/* 6.2.37, short_event_descriptor: language 24, event name after its length, text after its length. */
struct second_event second_short_event(const uint8_t *b, size_t size)
{
    struct second_event e;
    size_t body;
    memset(&e, 0, sizeof e);
    e.number = frame(b, size, 0x4D, &body);
    if (!e.number)
        e.number = two_texts(b, size, 5, &e.name_at, &e.name_size, &e.text_at, &e.text_size);
    for (int i = 0; i < 3 && !e.number; i++)
        e.language[i] = b[2 + i];
    return e;
}

/* 6.2.9, content_descriptor: content_nibble_level_1 4, content_nibble_level_2 4, user_byte 8. */
struct second_content second_content(const uint8_t *b, size_t size, uint64_t index)
{
    struct second_content c;
    const uint8_t *i;
    memset(&c, 0, sizeof c);
    c.number = listed(b, size, 0x54, 2, index, &i);
    if (c.number)
        return c;
    c.level_1 = i[0] / 16;
    c.level_2 = i[0] % 16;
    c.user_byte = i[1];
    return c;
}

/* 6.2.28, parental_rating_descriptor: country_code 24, rating 8. */
struct second_rating second_parental_rating(const uint8_t *b, size_t size, uint64_t index)
{
    struct second_rating r;
    const uint8_t *i;
    memset(&r, 0, sizeof r);
    r.number = listed(b, size, 0x55, 4, index, &i);
    if (r.number)
        return r;
    r.country[0] = i[0];
    r.country[1] = i[1];
    r.country[2] = i[2];
    r.rating = i[3];
    return r;
}

/* What a time or an offset that stands at `at` has told of its own bytes, told of the body. */
static struct second_why in_body(const uint8_t *b, const uint8_t *at, struct second_why why)
{
    if (why.number)
        why.place += (unsigned)(at - (b + 2));
    return why;
}

/* 6.2.20, local_time_offset_descriptor: "fields left to right, each 63, 64, 65". */
struct second_local second_local_time_offset(const uint8_t *b, size_t size, uint64_t index)
{
    struct second_local l;
    const uint8_t *i;
    memset(&l, 0, sizeof l);
    l.why.number = listed(b, size, 0x58, 13, index, &i);
    if (l.why.number)
        return l;
    /* country_code 24, country_region_id 6, reserved 1, local_time_offset_polarity 1 */
    l.country[0] = i[0];
    l.country[1] = i[1];
    l.country[2] = i[2];
    l.region = i[3] / 4;
    int behind = i[3] % 2;
    /* local_time_offset 16, time_of_change 40, next_time_offset 16 */
    struct second_offset offset = second_offset(behind, i + 4);
    l.why = in_body(b, i + 4, offset.why);
    if (l.why.number)
        return l;
    l.offset = offset.minutes;
    l.change = second_time(i + 6);
    l.why = in_body(b, i + 6, l.change.why);
    if (l.why.number)
        return l;
    offset = second_offset(behind, i + 11);
    l.why = in_body(b, i + 11, offset.why);
    l.next = offset.minutes;
    return l;
}

/* 6.2.13.4, terrestrial_delivery_system_descriptor. */
struct second_terrestrial second_terrestrial(const uint8_t *b, size_t size)
{
    struct second_terrestrial t;
    memset(&t, 0, sizeof t);
    t.number = fixed_body(b, size, 0x5A, 11);
    if (t.number)
        return t;
    /* centre_frequency 32, binary */
    for (int i = 2; i < 6; i++)
        t.frequency = t.frequency * 256 + b[i];
    /* bandwidth 3, priority 1, Time_Slicing_indicator 1, MPE-FEC_indicator 1, reserved_future_use 2 */
    t.bandwidth = b[6] / 32;
    t.priority = b[6] / 16 % 2;
    t.time_slicing = b[6] / 8 % 2;
    t.mpe_fec = b[6] / 4 % 2;
    /* constellation 2, hierarchy_information 3, code_rate-HP_stream 3 */
    t.constellation = b[7] / 64;
    t.hierarchy = b[7] / 8 % 8;
    t.code_rate_hp = b[7] % 8;
    /* code_rate-LP_stream 3, guard_interval 2, transmission_mode 2, other_frequency_flag 1, reserved_future_use 32 */
    t.code_rate_lp = b[8] / 32;
    t.guard_interval = b[8] / 8 % 4;
    t.transmission_mode = b[8] / 2 % 4;
    t.other_frequency = b[8] % 2;
    return t;
}
