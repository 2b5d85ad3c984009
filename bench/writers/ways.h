/* Ways to write descriptors from the same fields. */
#ifndef WRITERS_WAYS_H
#define WRITERS_WAYS_H
#include "lohitunga.h"
#include <stddef.h>
#include <stdint.h>

/* A descriptor of one shape: its tag, how many items a list has, how long its texts are. */
struct shape {
    const char *name;
    uint8_t tag;
    size_t items, sizes[2];
};

/* So many descriptors of a shape are written in turn; their fields stay in the first cache. */
enum { GIVEN = 16, NUMBERS_MOST = 172, TEXT_MOST = 255, ROOM = LOHITUNGA_DESCRIPTOR_ROOM };

/* The fields of one: as our calls take them; and the digits in them, as the others take these. */
struct given {
    union {
        lohitunga_satellite satellite;
        lohitunga_cable cable;
        lohitunga_terrestrial terrestrial;
        lohitunga_service service;
        lohitunga_short_event event;
        lohitunga_part text;
        int32_t rows[NUMBERS_MOST];
    };
    size_t items;
    uint32_t frequency_digits, position_digits, rate_digits;
    union {
        struct { uint16_t offset, next; uint64_t change; } items_digits[19];
        uint8_t texts[TEXT_MOST];
    };
};

/* Writes the GIVEN descriptors, one after the other into the same room, and tells the sum of their sizes. */
typedef size_t way(const struct given *, uint8_t *room);

/* NULL where there is no such way. biTStream has its digits handed in, or makes them out of the same numbers by its own functions, or a plain loop over the
   digits makes them for it; where a layout has none, these three are one. libdvbpsi has its struct ready, digits in it, and gives back what it asks for. */
enum digits { HANDED, OWN_FUNCTIONS, BY_LOOP };
way *ours_of(uint8_t tag);
way *bitstream_of(uint8_t tag, enum digits);
#ifdef HEADERS
static inline way *dvbpsi_of(const struct shape *shape, const struct given *given) { return (void)shape, (void)given, NULL; }
#else
way *dvbpsi_of(const struct shape *, const struct given *);
#endif

/* A plain loop over so many digits of a number. */
static inline uint32_t digits_of(uint32_t number, int count) {
    uint32_t digits = 0;
    for (int i = 0; i < count; i++, number /= 10) digits |= number % 10 << 4 * i;
    return digits;
}

static inline uint32_t distance(int32_t minutes) { return (uint32_t)(minutes < 0 ? -minutes : minutes); }

#endif
