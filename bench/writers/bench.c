/* The writers of descriptors beside biTStream's setters and libdvbpsi's generators, which look at no field, and texts beside a copy of the same bytes.
       bench ROUNDS            a row for each shape: nanoseconds a descriptor, medians of rounds that take turns; and its limit, and what is above it
       bench SHAPE WAY TIMES   one way over the descriptors of a shape, so often, to be counted; it prints how many descriptors that is for each time, or 0
                               where there is no such way. Both are counted from 0; WAY is a column of the table */
#include "../rounds.h"
#include "ways.h"
#include <string.h>

static const struct shape shapes[] = {
    {"satellite", LOHITUNGA_TAG_SATELLITE, 0, {0, 0}},
    {"cable", LOHITUNGA_TAG_CABLE, 0, {0, 0}},
    {"terrestrial", LOHITUNGA_TAG_TERRESTRIAL, 0, {0, 0}},
    {"local time offset, 1", LOHITUNGA_TAG_LOCAL_TIME_OFFSET, 1, {0, 0}},
    {"local time offset, 19", LOHITUNGA_TAG_LOCAL_TIME_OFFSET, 19, {0, 0}},
    {"service list, 1", LOHITUNGA_TAG_SERVICE_LIST, 1, {0, 0}},
    {"service list, 10", LOHITUNGA_TAG_SERVICE_LIST, 10, {0, 0}},
    {"service list, 83", LOHITUNGA_TAG_SERVICE_LIST, 83, {0, 0}},
    {"content, 1", LOHITUNGA_TAG_CONTENT, 1, {0, 0}},
    {"content, 4", LOHITUNGA_TAG_CONTENT, 4, {0, 0}},
    {"parental rating, 1", LOHITUNGA_TAG_PARENTAL_RATING, 1, {0, 0}},
    {"parental rating, 4", LOHITUNGA_TAG_PARENTAL_RATING, 4, {0, 0}},
    {"network name, 16 bytes", LOHITUNGA_TAG_NETWORK_NAME, 0, {16, 0}},
    {"network name, 255", LOHITUNGA_TAG_NETWORK_NAME, 0, {255, 0}},
    {"stuffing, 64", LOHITUNGA_TAG_STUFFING, 0, {64, 0}},
    {"service, 8 and 14", LOHITUNGA_TAG_SERVICE, 0, {8, 14}},
    {"short event, 24 and 180", LOHITUNGA_TAG_SHORT_EVENT, 0, {24, 180}},
};
enum { SHAPES = sizeof shapes / sizeof *shapes };

static struct given given[GIVEN];
static uint8_t room[ROOM];

/* Fields */

static uint32_t seed = 300468;
static uint32_t below(uint32_t n) {
    seed = seed * 1664525 + 1013904223;
    return (uint32_t)((uint64_t)seed * n >> 32);
}
#define BITS(n) (uint8_t)below(1u << (n))

/* No roll-off, which biTStream does not write. */
static void give_system(const struct shape *s, struct given *g) {
    uint32_t frequency = below(100000000), position = below(10000), rate = below(10000000);
    if (s->tag == LOHITUNGA_TAG_SATELLITE)
        g->satellite = (lohitunga_satellite){{frequency}, position, rate, BITS(1), BITS(2), BITS(1), 0, BITS(2), BITS(4)};
    else if (s->tag == LOHITUNGA_TAG_CABLE)
        g->cable = (lohitunga_cable){{frequency}, rate, BITS(4), BITS(8), BITS(4)};
    else
        g->terrestrial = (lohitunga_terrestrial){{frequency}, BITS(3), BITS(1), BITS(1), BITS(1), BITS(2), BITS(3), BITS(3), BITS(3), BITS(2), BITS(2),
                                                 BITS(1)};
    g->frequency_digits = digits_of(frequency, 8);
    g->position_digits = digits_of(position, 4);
    g->rate_digits = digits_of(rate, 7);
}

static void give_offset(struct given *g, size_t i) {
    int32_t side = below(2) ? 1 : -1, *row = g->rows + LOHITUNGA_LOCAL_TIME_OFFSET_ROW * i;
    int32_t made[] = {(int32_t)below(1 << 24), BITS(6), side * (int32_t)below(1440), 15079 + (int32_t)below(50457), (int32_t)below(24), (int32_t)below(60),
                      (int32_t)below(60), 0, side * (int32_t)below(1440)};
    uint32_t clock = digits_of((uint32_t)made[4], 2) << 16 | digits_of((uint32_t)made[5], 2) << 8 | digits_of((uint32_t)made[6], 2);
    memcpy(row, made, sizeof made);
    g->items_digits[i].offset = (uint16_t)(digits_of(distance(made[2]) / 60, 2) << 8 | digits_of(distance(made[2]) % 60, 2));
    g->items_digits[i].next = (uint16_t)(digits_of(distance(made[8]) / 60, 2) << 8 | digits_of(distance(made[8]) % 60, 2));
    g->items_digits[i].change = (uint64_t)made[3] << 24 | clock;
}

static void give_list(const struct shape *s, struct given *g) {
    g->items = s->items;
    for (size_t i = 0; i < s->items; i++) {
        int32_t *two = g->rows + 2 * i, *three = g->rows + 3 * i;
        if (s->tag == LOHITUNGA_TAG_LOCAL_TIME_OFFSET) give_offset(g, i);
        else if (s->tag == LOHITUNGA_TAG_CONTENT) three[0] = BITS(4), three[1] = BITS(4), three[2] = BITS(8);
        else two[0] = (int32_t)below(s->tag == LOHITUNGA_TAG_SERVICE_LIST ? 65536 : 1 << 24), two[1] = BITS(8);
    }
}

static void give_texts(const struct shape *s, struct given *g) {
    lohitunga_part first = {0, s->sizes[0]}, second = {s->sizes[0], s->sizes[1]};
    for (size_t i = 0; i < TEXT_MOST; i++) g->texts[i] = BITS(8);
    if (s->tag == LOHITUNGA_TAG_SERVICE) g->service = (lohitunga_service){BITS(8), first, second};
    else if (s->tag == LOHITUNGA_TAG_SHORT_EVENT) g->event = (lohitunga_short_event){below(1 << 24), first, second};
    else g->text = first;
}

static void give(const struct shape *s) {
    memset(given, 0, sizeof given);
    for (int i = 0; i < GIVEN; i++)
        if (s->items) give_list(s, given + i);
        else if (s->sizes[0]) give_texts(s, given + i);
        else give_system(s, given + i);
}

/* Ways */

static size_t copied;
static void *(*volatile copy)(void *, const void *, size_t) = memcpy;

/* All texts of a descriptor by one call. */
static size_t copies(const struct given *g, uint8_t *to) {
    for (int i = 0; i < GIVEN; i++, g++) copy(to + 2, g->texts, copied);
    return GIVEN * copied;
}

enum { OURS, BITSTREAM, ITS_DIGITS, LOOP_DIGITS, DVBPSI, COPY, WAYS };

static void choose(const struct shape *s, way **ways) {
    give(s);
    copied = s->sizes[0] + s->sizes[1];
    ways[OURS] = ours_of(s->tag);
    ways[BITSTREAM] = bitstream_of(s->tag, HANDED);
    ways[ITS_DIGITS] = bitstream_of(s->tag, OWN_FUNCTIONS);
    ways[LOOP_DIGITS] = bitstream_of(s->tag, BY_LOOP);
    ways[DVBPSI] = dvbpsi_of(s, given);
    ways[COPY] = copied ? copies : NULL;
}

/* biTStream writes the same bytes: of each descriptor, when it is the last that is written. libdvbpsi writes as many. */
static int same(const struct shape *s, way **ways) {
    static uint8_t theirs[ROOM];
    for (int i = 0; i < GIVEN; i++) {
        struct given last = given[GIVEN - 1];
        given[GIVEN - 1] = given[i], given[i] = last;
        memset(room, 0, ROOM);
        size_t sum = ways[OURS](given, room);
        for (int w = BITSTREAM; w <= LOOP_DIGITS; w++) {
            if (!ways[w]) continue;
            memset(theirs, 0, ROOM);
            if (ways[w](given, theirs) != sum || memcmp(room, theirs, ROOM)) return fprintf(stderr, "%s: not the same bytes\n", s->name), 0;
        }
        if (ways[DVBPSI] && ways[DVBPSI](given, theirs) != sum) return fprintf(stderr, "%s: libdvbpsi: not as many bytes\n", s->name), 0;
    }
    return 1;
}

/* The median of each way's rounds, 0 where it is none. */
static void measure(way **ways, int times, double *medians) {
    static double took[WAYS][MOST_ROUNDS];
    size_t again = 1 + 20000 / (20 + room[1]);
    volatile size_t sink = 0;
    for (int r = 0; r < times; r++)
        for (int w = 0; w < WAYS; w++) {
            if (!ways[w]) continue;
            double start = now();
            for (size_t k = 0; k < again; k++) sink += ways[w](given, room);
            took[w][r] = (now() - start) / (double)(again * GIVEN);
        }
    for (int w = 0; w < WAYS; w++) {
        qsort(took[w], (size_t)times, sizeof(double), order);
        medians[w] = ways[w] ? took[w][times / 2] : 0;
    }
}

static void number(const char *form, double n) {
    if (n > 0) printf(form, n);
    else printf("%10s", "");
}

/* A layout of numbers may take twice what biTStream's setters take, a text twice a copy and 40 ns. Ours makes digits out of numbers: it is set beside the
   setters without that, and beside the quicker way to do it with them. */
static void row(const struct shape *s, way **ways, int times) {
    double m[WAYS], limit, made;
    measure(ways, times, m);
    limit = ways[COPY] ? 2 * m[COPY] + 40 : 2 * m[BITSTREAM];
    made = m[ITS_DIGITS] < m[LOOP_DIGITS] ? m[ITS_DIGITS] : m[LOOP_DIGITS];
    printf("%-24s", s->name);
    for (int w = 0; w < WAYS; w++) number("%10.1f", m[w]);
    number("%10.1f", limit);
    number("%10.2f", m[OURS] / m[BITSTREAM]);
    number("%10.2f", made > 0 ? m[OURS] / made : 0);
    puts(m[OURS] > limit ? "  over" : "");
}

int main(int argc, char **argv) {
    way *ways[WAYS];
    if (lohitunga_interface() != LOHITUNGA_INTERFACE) return fprintf(stderr, "header and archive differ\n"), 1;
    if (argc == 4) {
        int s = atoi(argv[1]), w = atoi(argv[2]);
        if (s < 0 || s >= SHAPES || w < 0 || w >= WAYS) return 2;
        choose(shapes + s, ways);
        for (int k = ways[w] ? atoi(argv[3]) : 0; k > 0; k--) ways[w](given, room);
        return printf("%d %s\n", ways[w] ? GIVEN : 0, shapes[s].name) < 0;
    }
    int times = times_of(argc, argv, 101);
    printf("\n%d rounds: ns a descriptor\n%-24s%10s%10s%10s%10s%10s%10s%10s%10s%10s\n", times, "", "ours", "biTStream", "its digit", "by loop", "libdvbpsi",
           "memcpy", "limit", "times", "made too");
    for (int s = 0; s < SHAPES; s++) {
        choose(shapes + s, ways);
        if (!same(shapes + s, ways)) return 1;
        row(shapes + s, ways, times);
    }
    return 0;
}
