/* biTStream's setters: one function for each layout, called once for each descriptor, as ours is. It looks at no field. Stuffing bytes, for which it has no
   setter, are copied. */
#include "ways.h"
#include <bitstream/dvb/si.h>
#include <string.h>
#include <time.h>

static inline uint16_t hours_and_minutes(int32_t minutes, uint16_t handed, enum digits how) {
    uint32_t m = distance(minutes);
    if (how == HANDED) return handed;
    if (how == OWN_FUNCTIONS) return (uint16_t)(dvb_time_encode_duration(m * 60) >> 8);
    return (uint16_t)(digits_of(m / 60, 2) << 8 | digits_of(m % 60, 2));
}

/* Of a row from the MJD on; no time is undefined here. */
static inline uint64_t moment(const int32_t *row, uint64_t handed, enum digits how) {
    uint64_t day = (uint64_t)row[0] << 24;
    if (how == HANDED) return handed;
    if (how == OWN_FUNCTIONS) return day | dvb_bcd_set8((unsigned)row[1]) << 16 | dvb_bcd_set8((unsigned)row[2]) << 8 | dvb_bcd_set8((unsigned)row[3]);
    return day | digits_of((uint32_t)row[1], 2) << 16 | digits_of((uint32_t)row[2], 2) << 8 | digits_of((uint32_t)row[3], 2);
}

static inline void put_frequency(uint8_t *to, uint32_t number, uint32_t handed, enum digits how) {
    if (how == OWN_FUNCTIONS) dvb_bcd_set(to + 2, number, 32);
    else desc43_set_frequency_bcd(to, how == HANDED ? handed : digits_of(number, 8));
}

static inline void put_rate(uint8_t *to, uint32_t number, uint32_t handed, enum digits how) {
    if (how == OWN_FUNCTIONS) dvb_bcd_set(to + 9, number, 28);
    else desc43_set_symbolrate_bcd(to, how == HANDED ? handed : digits_of(number, 7));
}

static inline void code_of(uint8_t code[3], int32_t letters) {
    for (int i = 0; i < 3; i++) code[i] = (uint8_t)(letters >> (16 - 8 * i));
}

static inline void network_name(const struct given *g, uint8_t *to, enum digits how) {
    (void)how;
    desc40_init(to);
    desc40_set_networkname(to, g->texts + g->text.start, (uint8_t)g->text.size);
}

static inline void service_list(const struct given *g, uint8_t *to, enum digits how) {
    (void)how;
    desc41_init(to);
    desc_set_length(to, (uint8_t)(g->items * DESC41_SERVICE_SIZE));
    for (size_t i = 0; i < g->items; i++) {
        uint8_t *item = desc41_get_service(to, (uint8_t)i);
        desc41n_set_sid(item, (uint16_t)g->rows[2 * i]);
        desc41n_set_type(item, (uint8_t)g->rows[2 * i + 1]);
    }
}

static inline void stuffing(const struct given *g, uint8_t *to, enum digits how) {
    (void)how;
    desc42_init(to);
    desc_set_length(to, (uint8_t)g->text.size);
    memcpy(to + DESC42_HEADER_SIZE, g->texts + g->text.start, (uint8_t)g->text.size);
}

static inline void satellite(const struct given *g, uint8_t *to, enum digits how) {
    const lohitunga_satellite *f = &g->satellite;
    desc43_init(to);
    put_frequency(to, f->frequency.steps, g->frequency_digits, how);
    if (how == OWN_FUNCTIONS) dvb_bcd_set(to + 6, f->orbital_position, 16);
    else desc43_set_position_bcd(to, (uint16_t)(how == HANDED ? g->position_digits : digits_of(f->orbital_position, 4)));
    desc43_set_east(to, f->west_east_flag);
    desc43_set_polarization(to, f->polarization);
    desc43_set_rolloff(to, f->roll_off);
    desc43_set_dvbs2(to, f->modulation_system);
    desc43_set_modulation(to, f->modulation_type);
    put_rate(to, f->symbol_rate, g->rate_digits, how);
    desc43_set_fecinner(to, f->fec_inner);
}

static inline void cable(const struct given *g, uint8_t *to, enum digits how) {
    const lohitunga_cable *f = &g->cable;
    desc44_init(to);
    put_frequency(to, f->frequency.steps, g->frequency_digits, how);
    desc44_set_fecouter(to, f->fec_outer);
    desc44_set_modulation(to, f->modulation);
    put_rate(to, f->symbol_rate, g->rate_digits, how);
    desc44_set_fecinner(to, f->fec_inner);
}

static inline void service(const struct given *g, uint8_t *to, enum digits how) {
    const lohitunga_service *f = &g->service;
    (void)how;
    desc48_init(to);
    desc48_set_type(to, f->service_type);
    desc48_set_provider(to, g->texts + f->service_provider_name.start, (uint8_t)f->service_provider_name.size);
    desc48_set_service(to, g->texts + f->service_name.start, (uint8_t)f->service_name.size);
    desc48_set_length(to);
}

static inline void short_event(const struct given *g, uint8_t *to, enum digits how) {
    const lohitunga_short_event *f = &g->event;
    uint8_t language[3];
    (void)how;
    code_of(language, (int32_t)f->language_code);
    desc4d_init(to);
    desc4d_set_lang(to, language);
    desc4d_set_event_name(to, g->texts + f->event_name.start, (uint8_t)f->event_name.size);
    desc4d_set_text(to, g->texts + f->text.start, (uint8_t)f->text.size);
    desc4d_set_length(to);
}

static inline void content(const struct given *g, uint8_t *to, enum digits how) {
    (void)how;
    desc54_init(to);
    desc_set_length(to, (uint8_t)(g->items * DESC54_CONTENT_SIZE));
    for (size_t i = 0; i < g->items; i++) {
        uint8_t *item = desc54_get_content(to, (uint8_t)i);
        desc54n_set_content_l1(item, (uint8_t)g->rows[3 * i]);
        desc54n_set_content_l2(item, (uint8_t)g->rows[3 * i + 1]);
        desc54n_set_user(item, (uint8_t)g->rows[3 * i + 2]);
    }
}

static inline void rating(const struct given *g, uint8_t *to, enum digits how) {
    uint8_t country[3];
    (void)how;
    desc55_init(to);
    desc_set_length(to, (uint8_t)(g->items * DESC55_RATING_SIZE));
    for (size_t i = 0; i < g->items; i++) {
        uint8_t *item = desc55_get_rating(to, (uint8_t)i);
        code_of(country, g->rows[2 * i]);
        desc55n_set_country_code(item, country);
        desc55n_set_rating(item, (uint8_t)g->rows[2 * i + 1]);
    }
}

static inline void offset(const struct given *g, uint8_t *to, enum digits how) {
    uint8_t country[3];
    desc58_init(to);
    desc_set_length(to, (uint8_t)(g->items * DESC58_LTO_SIZE));
    for (size_t i = 0; i < g->items; i++) {
        const int32_t *row = g->rows + LOHITUNGA_LOCAL_TIME_OFFSET_ROW * i;
        uint8_t *item = desc58_get_lto(to, (uint8_t)i);
        code_of(country, row[0]);
        desc58n_set_country_code(item, country);
        desc58n_set_country_region_id(item, (uint8_t)row[1]);
        desc58n_set_lto_polarity(item, row[2] < 0 || row[8] < 0);
        desc58n_set_lt_offset(item, hours_and_minutes(row[2], g->items_digits[i].offset, how));
        desc58n_set_time_of_change(item, moment(row + 3, g->items_digits[i].change, how));
        desc58n_set_next_offset(item, hours_and_minutes(row[8], g->items_digits[i].next, how));
    }
}

/* Its two indicators say whether a thing is used, and the bits whether it is not. */
static inline void terrestrial(const struct given *g, uint8_t *to, enum digits how) {
    const lohitunga_terrestrial *f = &g->terrestrial;
    (void)how;
    desc5a_init(to);
    desc5a_set_frequency(to, f->centre_frequency.steps);
    desc5a_set_bandwidth(to, f->bandwidth);
    desc5a_set_priority(to, f->priority);
    desc5a_set_timeslicing(to, !f->time_slicing_indicator);
    desc5a_set_mpefec(to, !f->mpe_fec_indicator);
    desc5a_set_constellation(to, f->constellation);
    desc5a_set_hierarchy(to, f->hierarchy_information);
    desc5a_set_coderatehp(to, f->code_rate_hp_stream);
    desc5a_set_coderatelp(to, f->code_rate_lp_stream);
    desc5a_set_guard(to, f->guard_interval);
    desc5a_set_transmission(to, f->transmission_mode);
    desc5a_set_otherfrequency(to, f->other_frequency_flag);
}

/* Nothing that the loop knows goes into what it calls: a library's call would not have it either. */
#define WAY(layout, how) \
    __attribute__((noipa)) static size_t layout##_##how##_once(const struct given *g, uint8_t *room) { \
        layout(g, room, how); \
        return DESC_HEADER_SIZE + (size_t)desc_get_length(room); \
    } \
    static size_t layout##_##how(const struct given *g, uint8_t *room) { \
        size_t sum = 0; \
        for (int i = 0; i < GIVEN; i++, g++) sum += layout##_##how##_once(g, room); \
        return sum; \
    }
#define WAYS(layout) WAY(layout, HANDED) WAY(layout, OWN_FUNCTIONS) WAY(layout, BY_LOOP)

WAYS(satellite) WAYS(cable) WAYS(offset)
WAY(network_name, HANDED) WAY(service_list, HANDED) WAY(stuffing, HANDED) WAY(service, HANDED) WAY(short_event, HANDED)
WAY(content, HANDED) WAY(rating, HANDED) WAY(terrestrial, HANDED)

way *bitstream_of(uint8_t tag, enum digits how) {
    static way *const satellites[] = {satellite_HANDED, satellite_OWN_FUNCTIONS, satellite_BY_LOOP};
    static way *const cables[] = {cable_HANDED, cable_OWN_FUNCTIONS, cable_BY_LOOP};
    static way *const offsets[] = {offset_HANDED, offset_OWN_FUNCTIONS, offset_BY_LOOP};
    switch (tag) {
    case LOHITUNGA_TAG_SATELLITE: return satellites[how];
    case LOHITUNGA_TAG_CABLE: return cables[how];
    case LOHITUNGA_TAG_LOCAL_TIME_OFFSET: return offsets[how];
    }
    if (how != HANDED) return NULL;
    switch (tag) {
    case LOHITUNGA_TAG_NETWORK_NAME: return network_name_HANDED;
    case LOHITUNGA_TAG_SERVICE_LIST: return service_list_HANDED;
    case LOHITUNGA_TAG_STUFFING: return stuffing_HANDED;
    case LOHITUNGA_TAG_SERVICE: return service_HANDED;
    case LOHITUNGA_TAG_SHORT_EVENT: return short_event_HANDED;
    case LOHITUNGA_TAG_CONTENT: return content_HANDED;
    case LOHITUNGA_TAG_PARENTAL_RATING: return rating_HANDED;
    default: return terrestrial_HANDED;
    }
}
