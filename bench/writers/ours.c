/* The calls for C. */
#include "ways.h"

#define WAY(name, call) \
    static size_t name(const struct given *g, uint8_t *room) { \
        size_t sum = 0; \
        for (int i = 0; i < GIVEN; i++, g++) sum += (call).size; \
        return sum; \
    }

WAY(network_name, lohitunga_write_network_name(g->text, g->texts, TEXT_MOST, room, ROOM))
WAY(service_list, lohitunga_write_service_list(g->rows, g->items * LOHITUNGA_SERVICE_LIST_ROW, room, ROOM))
WAY(stuffing, lohitunga_write_stuffing(g->text, g->texts, TEXT_MOST, room, ROOM))
WAY(satellite, lohitunga_write_satellite(g->satellite, room, ROOM))
WAY(cable, lohitunga_write_cable(g->cable, room, ROOM))
WAY(service, lohitunga_write_service(g->service, g->texts, TEXT_MOST, room, ROOM))
WAY(short_event, lohitunga_write_short_event(g->event, g->texts, TEXT_MOST, room, ROOM))
WAY(content, lohitunga_write_content(g->rows, g->items * LOHITUNGA_CONTENT_ROW, room, ROOM))
WAY(rating, lohitunga_write_parental_rating(g->rows, g->items * LOHITUNGA_PARENTAL_RATING_ROW, room, ROOM))
WAY(offset, lohitunga_write_local_time_offset(g->rows, g->items * LOHITUNGA_LOCAL_TIME_OFFSET_ROW, room, ROOM))
WAY(terrestrial, lohitunga_write_terrestrial(g->terrestrial, room, ROOM))

way *ours_of(uint8_t tag) {
    switch (tag) {
    case LOHITUNGA_TAG_NETWORK_NAME: return network_name;
    case LOHITUNGA_TAG_SERVICE_LIST: return service_list;
    case LOHITUNGA_TAG_STUFFING: return stuffing;
    case LOHITUNGA_TAG_SATELLITE: return satellite;
    case LOHITUNGA_TAG_CABLE: return cable;
    case LOHITUNGA_TAG_SERVICE: return service;
    case LOHITUNGA_TAG_SHORT_EVENT: return short_event;
    case LOHITUNGA_TAG_CONTENT: return content;
    case LOHITUNGA_TAG_PARENTAL_RATING: return rating;
    case LOHITUNGA_TAG_LOCAL_TIME_OFFSET: return offset;
    default: return terrestrial;
    }
}
