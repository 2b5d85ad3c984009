/* libdvbpsi's generators. Each makes a descriptor of two pieces of memory, which are given back. */
#include "ways.h"
#include <stdbool.h>
#include <sys/types.h>
/* its headers want bool and ssize_t before them */
#include <dvbpsi/dvbpsi.h>
#include <dvbpsi/descriptor.h>
#include <dvbpsi/dr.h>
#include <string.h>

static union ready {
    dvbpsi_network_name_dr_t network_name;
    dvbpsi_service_list_dr_t service_list;
    dvbpsi_stuffing_dr_t stuffing;
    dvbpsi_sat_deliv_sys_dr_t satellite;
    dvbpsi_cable_deliv_sys_dr_t cable;
    dvbpsi_service_dr_t service;
    dvbpsi_short_event_dr_t event;
    dvbpsi_content_dr_t content;
    dvbpsi_parental_rating_dr_t rating;
    dvbpsi_local_time_offset_dr_t offset;
    dvbpsi_terr_deliv_sys_dr_t terrestrial;
} ready[GIVEN];

static void ready_lists(const struct given *g, union ready *r, uint8_t tag) {
    for (size_t i = 0; i < g->items; i++) {
        const int32_t *two = g->rows + 2 * i, *three = g->rows + 3 * i, *nine = g->rows + 9 * i;
        if (tag == LOHITUNGA_TAG_SERVICE_LIST) {
            r->service_list.i_service_count = (uint8_t)g->items;
            r->service_list.i_service[i].i_service_id = (uint16_t)two[0];
            r->service_list.i_service[i].i_service_type = (uint8_t)two[1];
        } else if (tag == LOHITUNGA_TAG_CONTENT) {
            r->content.i_contents_number = (uint8_t)g->items;
            r->content.p_content[i] = (dvbpsi_content_t){(uint8_t)(three[0] << 4 | three[1]), (uint8_t)three[2]};
        } else if (tag == LOHITUNGA_TAG_PARENTAL_RATING) {
            r->rating.i_ratings_number = (uint8_t)g->items;
            r->rating.p_parental_rating[i] = (dvbpsi_parental_rating_t){(uint32_t)two[0], (uint8_t)two[1]};
        } else {
            r->offset.i_local_time_offsets_number = (uint8_t)g->items;
            r->offset.p_local_time_offset[i] = (dvbpsi_local_time_offset_t){
                {(uint8_t)(nine[0] >> 16), (uint8_t)(nine[0] >> 8), (uint8_t)nine[0]}, (uint8_t)nine[1], nine[2] < 0 || nine[8] < 0,
                g->items_digits[i].offset, g->items_digits[i].change, g->items_digits[i].next};
        }
    }
}

static void ready_texts(const struct given *g, union ready *r, uint8_t tag) {
    const uint8_t *text = g->texts;
    if (tag == LOHITUNGA_TAG_NETWORK_NAME || tag == LOHITUNGA_TAG_STUFFING) {
        /* both structs are a length and the bytes */
        r->network_name.i_name_length = (uint8_t)g->text.size;
        memcpy(r->network_name.i_name_byte, text + g->text.start, g->text.size);
    } else if (tag == LOHITUNGA_TAG_SERVICE) {
        lohitunga_part provider = g->service.service_provider_name, name = g->service.service_name;
        r->service = (dvbpsi_service_dr_t){.i_service_type = g->service.service_type, .i_service_provider_name_length = (uint8_t)provider.size,
                                           .i_service_name_length = (uint8_t)name.size};
        memcpy(r->service.i_service_provider_name, text + provider.start, provider.size);
        memcpy(r->service.i_service_name, text + name.start, name.size);
    } else {
        uint32_t l = g->event.language_code;
        lohitunga_part name = g->event.event_name, more = g->event.text;
        r->event = (dvbpsi_short_event_dr_t){.i_iso_639_code = {(uint8_t)(l >> 16), (uint8_t)(l >> 8), (uint8_t)l},
                                             .i_event_name_length = (int)name.size, .i_text_length = (int)more.size};
        memcpy(r->event.i_event_name, text + name.start, name.size);
        memcpy(r->event.i_text, text + more.start, more.size);
    }
}

static void ready_systems(const struct given *g, union ready *r, uint8_t tag) {
    const lohitunga_satellite *s = &g->satellite;
    const lohitunga_cable *c = &g->cable;
    const lohitunga_terrestrial *t = &g->terrestrial;
    if (tag == LOHITUNGA_TAG_SATELLITE)
        r->satellite = (dvbpsi_sat_deliv_sys_dr_t){g->frequency_digits, (uint16_t)g->position_digits, s->west_east_flag, s->polarization, s->roll_off,
                                                   s->modulation_system, s->modulation_type, g->rate_digits, s->fec_inner};
    else if (tag == LOHITUNGA_TAG_CABLE)
        r->cable = (dvbpsi_cable_deliv_sys_dr_t){g->frequency_digits, c->modulation, g->rate_digits, c->fec_inner, c->fec_outer};
    else
        r->terrestrial = (dvbpsi_terr_deliv_sys_dr_t){t->centre_frequency.steps, t->bandwidth, t->priority, t->time_slicing_indicator, t->mpe_fec_indicator,
                                                      t->constellation, t->hierarchy_information, t->code_rate_hp_stream, t->code_rate_lp_stream,
                                                      t->guard_interval, t->transmission_mode, t->other_frequency_flag};
}

#define WAY(layout, generator) \
    static size_t layout(const struct given *g, uint8_t *room) { \
        size_t sum = 0; \
        (void)g, (void)room; \
        for (int i = 0; i < GIVEN; i++) { \
            dvbpsi_descriptor_t *made = generator(&ready[i].layout, false); \
            sum += 2u + made->i_length; \
            dvbpsi_DeleteDescriptors(made); \
        } \
        return sum; \
    }
WAY(network_name, dvbpsi_GenNetworkNameDr)
WAY(service_list, dvbpsi_GenServiceListDr)
WAY(stuffing, dvbpsi_GenStuffingDr)
WAY(satellite, dvbpsi_GenSatDelivSysDr)
WAY(cable, dvbpsi_GenCableDelivSysDr)
WAY(service, dvbpsi_GenServiceDr)
WAY(event, dvbpsi_GenShortEventDr)
WAY(content, dvbpsi_GenContentDr)
WAY(rating, dvbpsi_GenParentalRatingDr)
WAY(offset, dvbpsi_GenLocalTimeOffsetDr)
WAY(terrestrial, dvbpsi_GenTerrDelivSysDr)

/* It writes no more than 83 services, and two contents or ratings past the end of its memory. */
way *dvbpsi_of(const struct shape *shape, const struct given *given) {
    uint8_t tag = shape->tag;
    if (shape->items > (tag == LOHITUNGA_TAG_SERVICE_LIST ? 83 : tag == LOHITUNGA_TAG_LOCAL_TIME_OFFSET ? 19 : 1)) return NULL;
    for (int i = 0; i < GIVEN; i++) {
        if (shape->items) ready_lists(given + i, ready + i, tag);
        else if (shape->sizes[0]) ready_texts(given + i, ready + i, tag);
        else ready_systems(given + i, ready + i, tag);
    }
    switch (tag) {
    case LOHITUNGA_TAG_NETWORK_NAME: return network_name;
    case LOHITUNGA_TAG_SERVICE_LIST: return service_list;
    case LOHITUNGA_TAG_STUFFING: return stuffing;
    case LOHITUNGA_TAG_SATELLITE: return satellite;
    case LOHITUNGA_TAG_CABLE: return cable;
    case LOHITUNGA_TAG_SERVICE: return service;
    case LOHITUNGA_TAG_SHORT_EVENT: return event;
    case LOHITUNGA_TAG_CONTENT: return content;
    case LOHITUNGA_TAG_PARENTAL_RATING: return rating;
    case LOHITUNGA_TAG_LOCAL_TIME_OFFSET: return offset;
    default: return terrestrial;
    }
}
