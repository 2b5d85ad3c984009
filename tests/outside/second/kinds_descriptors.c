#include "kinds.h"
#include "lohitunga.h"
#include "second.h"
#include "tally.h"

/* Descriptors */

static const char *const reading_names[11] = {
    "0x40 network name", "0x41 service list", "0x42 stuffing", "0x43 satellite", "0x44 cable", "0x48 service",
    "0x4D short event", "0x54 content", "0x55 rating", "0x58 local offset", "0x5A terrestrial"};

static void prepare_descriptors(void)
{
    static const char *const numbers[11] = {"0 61 62", "0 61 62 66", "0 61 62", "0 61 62 63", "0 61 62 63", "0 61 62",
                                            "0 61 62", "0 61 62 66", "0 61 62 66", "0 61 62 63 64 65 66 undefined", "0 61 62"};
    for (unsigned i = 0; i < 11; i++)
        must_meet(reading_names[i], numbers[i]);
    must_meet("count of items", "0 61 62");
}

static long long letters(const uint8_t three[3]) { return three[0] * 65536LL + three[1] * 256 + three[2]; }

static void compare_text(const uint8_t *lent, const uint8_t *b, size_t n, uint8_t tag)
{
    struct second_text s = tag == 0x40 ? second_network_name(b, n) : second_stuffing(b, n);
    lohitunga_text_answer a = tag == 0x40 ? lohitunga_read_network_name(lent, n) : lohitunga_read_stuffing(lent, n);
    long long library[] = {a.number, (long long)a.text.start, (long long)a.text.size};
    long long second[] = {s.number, OR_0(s.number, s.at), OR_0(s.number, s.size)};
    SAME("number text.start text.size", library, second);
}

static void compare_service_list(const uint8_t *lent, const uint8_t *b, size_t n, size_t index)
{
    struct second_listed s = second_service_list(b, n, index);
    lohitunga_service_list_answer a = lohitunga_read_service_list(lent, n, index);
    long long library[] = {a.number, a.item.service_id, a.item.service_type};
    long long second[] = {s.number, s.service_id, s.service_type};
    SAME("number service_id service_type", library, second);
}

static void compare_satellite(const uint8_t *lent, const uint8_t *b, size_t n)
{
    struct second_satellite s = second_satellite(b, n);
    lohitunga_satellite_answer a = lohitunga_read_satellite(lent, n);
    lohitunga_satellite f = a.satellite;
    long long library[] = {WHY(a), f.frequency.steps, f.orbital_position, f.west_east_flag, f.polarization, f.modulation_system,
                           f.roll_off, f.modulation_type, f.symbol_rate, f.fec_inner,
                           (long long)lohitunga_satellite_hertz(f.frequency)};
    long long second[] = {WHY(s.why), OR_0(s.why.number, s.frequency), OR_0(s.why.number, s.orbital_position),
                          OR_0(s.why.number, s.west_east_flag), OR_0(s.why.number, s.polarization),
                          OR_0(s.why.number, s.modulation_system), OR_0(s.why.number, s.roll_off), OR_0(s.why.number, s.modulation_type),
                          OR_0(s.why.number, s.symbol_rate), OR_0(s.why.number, s.fec_inner), OR_0(s.why.number, s.frequency) * 10000};
    SAME("number place digit frequency orbital_position west_east_flag polarization modulation_system roll_off modulation_type symbol_rate "
         "fec_inner hertz", library, second);
}

static void compare_cable(const uint8_t *lent, const uint8_t *b, size_t n)
{
    struct second_cable s = second_cable(b, n);
    lohitunga_cable_answer a = lohitunga_read_cable(lent, n);
    lohitunga_cable f = a.cable;
    long long library[] = {WHY(a), f.frequency.steps, f.fec_outer, f.modulation, f.symbol_rate, f.fec_inner,
                           (long long)lohitunga_cable_hertz(f.frequency)};
    long long second[] = {WHY(s.why), OR_0(s.why.number, s.frequency), OR_0(s.why.number, s.fec_outer), OR_0(s.why.number, s.modulation),
                          OR_0(s.why.number, s.symbol_rate), OR_0(s.why.number, s.fec_inner), OR_0(s.why.number, s.frequency) * 100};
    SAME("number place digit frequency fec_outer modulation symbol_rate fec_inner hertz", library, second);
}

static void compare_service(const uint8_t *lent, const uint8_t *b, size_t n)
{
    struct second_service s = second_service(b, n);
    lohitunga_service_answer a = lohitunga_read_service(lent, n);
    lohitunga_service f = a.service;
    long long library[] = {a.number, f.service_type, (long long)f.service_provider_name.start, (long long)f.service_provider_name.size,
                           (long long)f.service_name.start, (long long)f.service_name.size};
    long long second[] = {s.number, OR_0(s.number, s.service_type), OR_0(s.number, s.provider_at), OR_0(s.number, s.provider_size),
                          OR_0(s.number, s.name_at), OR_0(s.number, s.name_size)};
    SAME("number service_type provider.start provider.size name.start name.size", library, second);
}

static void compare_event(const uint8_t *lent, const uint8_t *b, size_t n)
{
    struct second_event s = second_short_event(b, n);
    lohitunga_short_event_answer a = lohitunga_read_short_event(lent, n);
    lohitunga_short_event f = a.short_event;
    long long library[] = {a.number, f.language_code, (long long)f.event_name.start, (long long)f.event_name.size,
                           (long long)f.text.start, (long long)f.text.size};
    long long second[] = {s.number, OR_0(s.number, letters(s.language)), OR_0(s.number, s.name_at), OR_0(s.number, s.name_size),
                          OR_0(s.number, s.text_at), OR_0(s.number, s.text_size)};
    SAME("number language_code event_name.start event_name.size text.start text.size", library, second);
}

static void compare_content(const uint8_t *lent, const uint8_t *b, size_t n, size_t index)
{
    struct second_content s = second_content(b, n, index);
    lohitunga_content_answer a = lohitunga_read_content(lent, n, index);
    long long library[] = {a.number, a.item.content_nibble_level_1, a.item.content_nibble_level_2, a.item.user_byte};
    long long second[] = {s.number, s.level_1, s.level_2, s.user_byte};
    SAME("number content_nibble_level_1 content_nibble_level_2 user_byte", library, second);
}

static void compare_rating(const uint8_t *lent, const uint8_t *b, size_t n, size_t index)
{
    struct second_rating s = second_parental_rating(b, n, index);
    lohitunga_parental_rating_answer a = lohitunga_read_parental_rating(lent, n, index);
    long long library[] = {a.number, a.item.country_code, a.item.rating};
    long long second[] = {s.number, OR_0(s.number, letters(s.country)), OR_0(s.number, s.rating)};
    SAME("number country_code rating", library, second);
}

static void compare_local(const uint8_t *lent, const uint8_t *b, size_t n, size_t index)
{
    struct second_local s = second_local_time_offset(b, n, index);
    lohitunga_local_time_offset_answer a = lohitunga_read_local_time_offset(lent, n, index);
    lohitunga_local_time_offset_item f = a.item;
    long long library[] = {WHY(a), f.country_code, f.country_region_id, f.local_time_offset, f.time_of_change.undefined,
                           f.time_of_change.mjd, f.time_of_change.hour, f.time_of_change.minute, f.time_of_change.second,
                           f.next_time_offset};
    long long second[] = {WHY(s.why), OR_0(s.why.number, letters(s.country)), OR_0(s.why.number, s.region), OR_0(s.why.number, s.offset),
                          OR_0(s.why.number, s.change.undefined), OR_0(s.why.number, s.change.mjd), OR_0(s.why.number, s.change.hour),
                          OR_0(s.why.number, s.change.minute), OR_0(s.why.number, s.change.second), OR_0(s.why.number, s.next)};
    SAME("number place digit country_code country_region_id local_time_offset undefined mjd hour minute second next_time_offset", library, second);
    if (!s.why.number && s.change.undefined)
        met_word("0x58 local offset", "undefined", 1);
}

static void compare_terrestrial(const uint8_t *lent, const uint8_t *b, size_t n)
{
    struct second_terrestrial s = second_terrestrial(b, n);
    lohitunga_terrestrial_answer a = lohitunga_read_terrestrial(lent, n);
    lohitunga_terrestrial f = a.terrestrial;
    long long library[] = {a.number, f.centre_frequency.steps, f.bandwidth, f.priority, f.time_slicing_indicator, f.mpe_fec_indicator,
                           f.constellation, f.hierarchy_information, f.code_rate_hp_stream, f.code_rate_lp_stream, f.guard_interval,
                           f.transmission_mode, f.other_frequency_flag, (long long)lohitunga_terrestrial_hertz(f.centre_frequency)};
    long long second[] = {s.number, s.frequency, s.bandwidth, s.priority, s.time_slicing, s.mpe_fec, s.constellation, s.hierarchy,
                          s.code_rate_hp, s.code_rate_lp, s.guard_interval, s.transmission_mode, s.other_frequency,
                          s.frequency * 10LL};
    SAME("number centre_frequency bandwidth priority time_slicing mpe_fec constellation hierarchy code_rate_hp code_rate_lp guard_interval "
         "transmission_mode other_frequency hertz", library, second);
}

static size_t item_size(uint8_t tag)
{
    switch (tag) {
    case 0x41: return 3;
    case 0x54: return 2;
    case 0x55: return 4;
    case 0x58: return 13;
    default: return 0;
    }
}

static void compare_count(const uint8_t *lent, const uint8_t *b, size_t n, uint8_t tag)
{
    lohitunga_count_answer a = tag == 0x41   ? lohitunga_service_list_count(lent, n)
                               : tag == 0x54 ? lohitunga_content_count(lent, n)
                               : tag == 0x55 ? lohitunga_parental_rating_count(lent, n)
                                             : lohitunga_local_time_offset_count(lent, n);
    struct second_count s = second_count(b, n, tag, item_size(tag));
    long long library[] = {a.number, (long long)a.count};
    long long second[] = {s.number, (long long)s.count};
    SAME("number count", library, second);
}

static unsigned number_of(const uint8_t *b, size_t n, uint8_t tag, size_t index)
{
    switch (tag) {
    case 0x40: return second_network_name(b, n).number;
    case 0x41: return second_service_list(b, n, index).number;
    case 0x42: return second_stuffing(b, n).number;
    case 0x43: return second_satellite(b, n).why.number;
    case 0x44: return second_cable(b, n).why.number;
    case 0x48: return second_service(b, n).number;
    case 0x4D: return second_short_event(b, n).number;
    case 0x54: return second_content(b, n, index).number;
    case 0x55: return second_parental_rating(b, n, index).number;
    case 0x58: return second_local_time_offset(b, n, index).why.number;
    default: return second_terrestrial(b, n).number;
    }
}

static void compare_reading(const uint8_t *lent, const uint8_t *b, size_t n, uint8_t tag, size_t index)
{
    switch (tag) {
    case 0x40:
    case 0x42: compare_text(lent, b, n, tag); break;
    case 0x41: compare_service_list(lent, b, n, index); break;
    case 0x43: compare_satellite(lent, b, n); break;
    case 0x44: compare_cable(lent, b, n); break;
    case 0x48: compare_service(lent, b, n); break;
    case 0x4D: compare_event(lent, b, n); break;
    case 0x54: compare_content(lent, b, n, index); break;
    case 0x55: compare_rating(lent, b, n, index); break;
    case 0x58: compare_local(lent, b, n, index); break;
    default: compare_terrestrial(lent, b, n); break;
    }
}

static void one_descriptor(struct dice *d)
{
    uint8_t bytes[512];
    unsigned which = one_in(d, 4) ? 9 : below(d, 11);
    uint8_t tag = typed_tags[which];
    size_t n = make_reading_case(d, tag, bytes), index = below(d, 4);
    if (item_size(tag) > 0) {
        size_t count = n / item_size(tag);
        static const size_t far[] = {SIZE_MAX, SIZE_MAX / 2, SIZE_MAX / 13 + 1, (size_t)1 << 32, 255};
        if (one_in(d, 2))
            index = count == 0 ? 0 : below(d, (unsigned)count + 1);
        if (one_in(d, 24))
            index = far[below(d, 5)];
    }
    for (enum placing p = 0; p < PLACINGS; p++) {
        call_begins(reading_names[which], p);
        call_piece("descriptor", bytes, n);
        call_number("index", (long long)index);
        const uint8_t *lent = lend(bytes, n, p);
        compare_reading(lent, bytes, n, tag, index);
        if (item_size(tag) > 0)
            compare_count(lent, bytes, n, tag);
        back();
    }
    met_number(reading_names[which], number_of(bytes, n, tag, index));
    if (item_size(tag) > 0)
        met_number("count of items", second_count(bytes, n, tag, item_size(tag)).number);
}

const struct kind kind_descriptors = {"descriptors", 1, prepare_descriptors, NULL, one_descriptor};
