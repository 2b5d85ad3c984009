#include "second.h"

/*
 * Document 02, request (iv), "Typed descriptors, written": "We want a writer for each of the eleven: fields in, tag, length, body
 * out." The sentences below are that request's; those of how a field is coded are EN 300 468's.
 */

/*
 * A body while it is written, bit behind bit. All bits are counted, and those of the first 255 bytes are kept: no longer body is
 * handed out. `outside` is 1 from the first field on that is outside its layout; the fields behind it are written all the same, so
 * that each is judged.
 */
enum { BODY_MOST = 255 };

struct body { uint8_t bytes[BODY_MOST]; uint64_t bits; int outside; };

static void put_bit(struct body *b, unsigned bit)
{
    uint64_t at = b->bits++;
    if (at / 8 >= BODY_MOST)
        return;
    if (at % 8 == 0)
        b->bytes[at / 8] = 0;
    b->bytes[at / 8] |= (uint8_t)(bit << (7 - at % 8));
}

/* "112 a field outside its layout" */
static void asked(struct body *b, int holds)
{
    if (!holds)
        b->outside = 1;
}

/* EN 300 468, 5.1.6: "Within each field, the bits shall be transmitted in descending order of index position." */
static void put(struct body *b, int64_t value, unsigned bits)
{
    int64_t unit = 1;
    for (unsigned i = 0; i < bits; i++)
        unit *= 2;
    asked(b, value >= 0 && value < unit);
    while (unit > 1) {
        unit /= 2;
        put_bit(b, value / unit % 2 != 0);
    }
}

/* EN 300 468, 3.1: "Unless otherwise specified within the present document all "reserved_future_use" bits are set to "1"", and "reserved" ones too. */
static void put_reserved(struct body *b, unsigned bits)
{
    while (bits-- > 0)
        put_bit(b, 1);
}

/* "the 4-bit BCD values specifying 8 characters of the frequency value", or 4, or 7, or 2: the highest first */
static void put_digits(struct body *b, int64_t value, unsigned digits)
{
    int64_t unit = 1;
    for (unsigned i = 0; i < digits; i++)
        unit *= 10;
    asked(b, value >= 0 && value < unit);
    while (unit > 1) {
        unit /= 10;
        put(b, (value < 0 ? 0 : value) / unit % 10, 4);
    }
}

/* docs/DECISIONS.md: a part that does not lie in the bytes lent is outside the layout. Whatever two numbers it is, no sum is made of them. */
static void put_text(struct body *b, struct second_part text, const uint8_t *bytes, size_t size)
{
    int lies = text.start <= size && text.size <= size - text.start;
    asked(b, lies);
    for (uint64_t i = 0; lies && i < text.size; i++)
        put(b, bytes[text.start + i], 8);
}

/*
 * "This 8-bit field specifies the number of bytes that follow". docs/DECISIONS.md: lengths are no fields of the caller's, and a
 * text of more than 255 bytes is 113: its body is over 255 bytes, whatever stands for its length.
 */
static void put_length_and_text(struct body *b, struct second_part text, const uint8_t *bytes, size_t size)
{
    put(b, (int64_t)(text.size % 256), 8);
    put_text(b, text, bytes, size);
}

static struct second_wrote out(const struct body *b, uint8_t tag, uint8_t *room, size_t room_size)
{
    struct second_wrote w = {0, 0};
    uint64_t length = b->bits / 8;
    /* "Refusals: 111 room under 257; 112 a field outside its layout; 113 body over 255 bytes; in that order." */
    if (room_size < 257)
        w.number = 111;
    else if (b->outside)
        w.number = 112;
    else if (length > BODY_MOST)
        w.number = 113;
    if (w.number)
        return w;
    /* "tag, length, body out"; "the total number of bytes of the data portion of the descriptor following" the length byte */
    room[w.size++] = tag;
    room[w.size++] = (uint8_t)length;
    for (uint64_t i = 0; i < length; i++)
        room[w.size++] = b->bytes[i];
    return w;
}

/* 6.2.27, network_name_descriptor: all the body is the name. */
struct second_wrote second_write_network_name(struct second_part name, const uint8_t *bytes, size_t size, uint8_t *room, size_t room_size)
{
    struct body b = {.bits = 0};
    put_text(&b, name, bytes, size);
    return out(&b, 0x40, room, room_size);
}

/* 6.2.40, stuffing_descriptor. "The stuffing descriptor keeps its body as given." */
struct second_wrote second_write_stuffing(struct second_part stuffing, const uint8_t *bytes, size_t size, uint8_t *room, size_t room_size)
{
    struct body b = {.bits = 0};
    put_text(&b, stuffing, bytes, size);
    return out(&b, 0x42, room, room_size);
}

/* 6.2.33, service_descriptor: service_type 8, provider after its length, name after its length. */
struct second_wrote second_write_service(int64_t service_type, struct second_part provider, struct second_part name, const uint8_t *bytes, size_t size,
                                         uint8_t *room, size_t room_size)
{
    struct body b = {.bits = 0};
    put(&b, service_type, 8);
    put_length_and_text(&b, provider, bytes, size);
    put_length_and_text(&b, name, bytes, size);
    return out(&b, 0x48, room, room_size);
}

/* 6.2.37, short_event_descriptor: language 24, event name after its length, text after its length. */
struct second_wrote second_write_short_event(int64_t language, struct second_part name, struct second_part text, const uint8_t *bytes, size_t size,
                                             uint8_t *room, size_t room_size)
{
    struct body b = {.bits = 0};
    put(&b, language, 24);
    put_length_and_text(&b, name, bytes, size);
    put_length_and_text(&b, text, bytes, size);
    return out(&b, 0x4D, room, room_size);
}

/*
 * A list: `put_item` for each row of numbers. docs/DECISIONS.md: numbers that are no whole row are outside the layout; and 112 is
 * judged of the whole input before 113, so that an item behind the 255th byte can be 112.
 */
static struct second_wrote list(uint8_t tag, size_t row, void (*put_item)(struct body *, const int32_t *), const int32_t *numbers, size_t count,
                                uint8_t *room, size_t room_size)
{
    struct body b = {.bits = 0};
    asked(&b, count % row == 0);
    for (; count >= row; count -= row, numbers += row)
        put_item(&b, numbers);
    return out(&b, tag, room, room_size);
}

/* 6.2.35, service_list_descriptor: service_id 16, service_type 8. */
static void put_listed(struct body *b, const int32_t *row)
{
    put(b, row[0], 16);
    put(b, row[1], 8);
}

/* 6.2.9, content_descriptor: content_nibble_level_1 4, content_nibble_level_2 4, user_byte 8. */
static void put_content(struct body *b, const int32_t *row)
{
    put(b, row[0], 4);
    put(b, row[1], 4);
    put(b, row[2], 8);
}

/* 6.2.28, parental_rating_descriptor: country_code 24, rating 8. */
static void put_rating(struct body *b, const int32_t *row)
{
    put(b, row[0], 24);
    put(b, row[1], 8);
}

/* "These 16 bits are coded as 4 digits in 4-bit BCD in the order hour tens, hour, minute tens, and minutes", without the sign. */
static void put_offset(struct body *b, int64_t minutes)
{
    if (minutes < 0)
        minutes = -minutes;
    asked(b, minutes / 60 <= 23);
    put_digits(b, minutes / 60, 2);
    put_digits(b, minutes % 60, 2);
}

/* "64 hour above 23, minute or second above 59" of document 01: what is refused there is not written here. */
static void put_clock_field(struct body *b, int64_t value, int64_t most)
{
    asked(b, value <= most);
    put_digits(b, value, 2);
}

/* "16 bits giving the 16 LSBs of MJD followed by 24 bits coded as 6 digits in the 4-bit BCD"; the fields are MJD, hour, minute, second. */
static void put_time(struct body *b, const int32_t *fields, int32_t undefined)
{
    asked(b, undefined == 0 || undefined == 1);
    /* Document 01: "Forty ones mean "undefined"". docs/DECISIONS.md: beside it the four are 0, as they are read. */
    if (undefined == 1) {
        for (int i = 0; i < 4; i++)
            asked(b, fields[i] == 0);
        for (int i = 0; i < 40; i++)
            put_bit(b, 1);
        return;
    }
    /* Document 01: "65 MJD below 15,079" */
    asked(b, fields[0] >= 15079);
    put(b, fields[0], 16);
    put_clock_field(b, fields[1], 23);
    put_clock_field(b, fields[2], 59);
    put_clock_field(b, fields[3], 59);
}

/*
 * 6.2.20, local_time_offset_descriptor. The row is country_code, country_region_id, local_time_offset, MJD, hour, minute, second,
 * undefined, next_time_offset.
 */
static void put_local(struct body *b, const int32_t *row)
{
    int32_t offset = row[2], next = row[8];
    put(b, row[0], 24);
    put(b, row[1], 6);
    put_reserved(b, 1);
    /* "Two offsets of opposite sign in one entry have no layout." */
    asked(b, !(offset < 0 && next > 0) && !(offset > 0 && next < 0));
    /* "If this bit is set to "1" the polarity is negative", of both; over two zeros it is 0 (docs/DECISIONS.md) */
    put(b, offset < 0 || next < 0 ? 1 : 0, 1);
    put_offset(b, offset);
    put_time(b, row + 3, row[7]);
    put_offset(b, next);
}

struct second_wrote second_write_service_list(const int32_t *numbers, size_t count, uint8_t *room, size_t room_size)
{
    return list(0x41, 2, put_listed, numbers, count, room, room_size);
}

struct second_wrote second_write_content(const int32_t *numbers, size_t count, uint8_t *room, size_t room_size)
{
    return list(0x54, 3, put_content, numbers, count, room, room_size);
}

struct second_wrote second_write_parental_rating(const int32_t *numbers, size_t count, uint8_t *room, size_t room_size)
{
    return list(0x55, 2, put_rating, numbers, count, room, room_size);
}

struct second_wrote second_write_local_time_offset(const int32_t *numbers, size_t count, uint8_t *room, size_t room_size)
{
    return list(0x58, 9, put_local, numbers, count, room, room_size);
}

/* 6.2.13.2, satellite_delivery_system_descriptor. */
struct second_wrote second_write_satellite(const struct second_satellite *s, uint8_t *room, size_t room_size)
{
    struct body b = {.bits = 0};
    /* frequency 32 (8 digits), orbital_position 16 (4 digits), west_east_flag 1, polarization 2 */
    put_digits(&b, s->frequency, 8);
    put_digits(&b, s->orbital_position, 4);
    put(&b, s->west_east_flag, 1);
    put(&b, s->polarization, 2);
    /*
     * "if (modulation_system == "1") { roll_off } else { reserved_zero_future_use }", two bits; "All "reserved_zero_future_use"
     * bits are set to "0"". docs/DECISIONS.md: without a roll_off its number is 0, as it is read.
     */
    asked(&b, s->modulation_system == 1 || s->roll_off == 0);
    put(&b, s->roll_off, 2);
    /* modulation_system 1, modulation_type 2, symbol_rate 28 (7 digits), FEC_inner 4 */
    put(&b, s->modulation_system, 1);
    put(&b, s->modulation_type, 2);
    put_digits(&b, s->symbol_rate, 7);
    put(&b, s->fec_inner, 4);
    return out(&b, 0x43, room, room_size);
}

/* 6.2.13.1, cable_delivery_system_descriptor. */
struct second_wrote second_write_cable(const struct second_cable *c, uint8_t *room, size_t room_size)
{
    struct body b = {.bits = 0};
    /* frequency 32 (8 digits), reserved_future_use 12, FEC_outer 4, modulation 8, symbol_rate 28 (7 digits), FEC_inner 4 */
    put_digits(&b, c->frequency, 8);
    put_reserved(&b, 12);
    put(&b, c->fec_outer, 4);
    put(&b, c->modulation, 8);
    put_digits(&b, c->symbol_rate, 7);
    put(&b, c->fec_inner, 4);
    return out(&b, 0x44, room, room_size);
}

/* 6.2.13.4, terrestrial_delivery_system_descriptor. */
struct second_wrote second_write_terrestrial(const struct second_terrestrial *t, uint8_t *room, size_t room_size)
{
    struct body b = {.bits = 0};
    /* centre_frequency 32, bandwidth 3, priority 1, Time_Slicing_indicator 1, MPE-FEC_indicator 1, reserved_future_use 2 */
    put(&b, t->frequency, 32);
    put(&b, t->bandwidth, 3);
    put(&b, t->priority, 1);
    put(&b, t->time_slicing, 1);
    put(&b, t->mpe_fec, 1);
    put_reserved(&b, 2);
    /* constellation 2, hierarchy_information 3, code_rate-HP_stream 3, code_rate-LP_stream 3, guard_interval 2, transmission_mode 2 */
    put(&b, t->constellation, 2);
    put(&b, t->hierarchy, 3);
    put(&b, t->code_rate_hp, 3);
    put(&b, t->code_rate_lp, 3);
    put(&b, t->guard_interval, 2);
    put(&b, t->transmission_mode, 2);
    /* other_frequency_flag 1, reserved_future_use 32 */
    put(&b, t->other_frequency, 1);
    put_reserved(&b, 32);
    return out(&b, 0x5A, room, room_size);
}
