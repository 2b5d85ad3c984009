/*
 * The library's descriptors, written by others that nobody here wrote:
 *     setters FILE        a file of `harness SEED COUNT --written FILE`
 * biTStream's setters and libdvbpsi's generators are given the same fields, and what each writes is compared with the library's bytes, one by one. Where
 * they are known to differ, the lists below have the reason and what they write in its place, to the byte; a difference that stands in the lists must be
 * met, and any other fails. Neither makes the digits of a descriptor out of a number: biTStream's own functions for digits and times do that for both.
 */
#include <time.h>

#include <bitstream/dvb/si.h>

#include <stdbool.h>
/* its headers want bool before them */
#include <dvbpsi/dvbpsi.h>
#include <dvbpsi/descriptor.h>
#include <dvbpsi/dr.h>

#include <stdint.h>
#include <stdio.h>
#include <stdlib.h>
#include <string.h>

#include "reader.h"

enum { NUMBERS_MOST = 127 * 3, TEXT_MOST = 255 };

/* What the library was given, and what it wrote. The numbers stand as in the structs of include/lohitunga.h, or as in its rows. */
struct given {
    unsigned tag;
    size_t count;
    int numbers[NUMBERS_MOST];
    uint8_t texts[2][TEXT_MOST];
    uint8_t sizes[2];
    uint8_t bytes[2 + 255];
    size_t size;
};

/* What another wrote: tag, length, body, and behind them what it wrote beyond. What it did not write is painted. */
enum { ROOM = 1024, PAINT = 0xA5 };
struct room { uint8_t bytes[ROOM]; };

/* Every piece of memory, of which libdvbpsi asks for one for each body, has ROOM bytes more than is asked for: some of its generators write past what they
 * ask for. It is painted, since one of them leaves a byte as it was. */
extern void *__libc_malloc(size_t);
void *malloc(size_t size)
{
    void *piece = __libc_malloc(size + ROOM);
    return piece ? memset(piece, PAINT, size + ROOM) : NULL;
}

/* Reading the file */

static int next(struct given *g)
{
    if (!goes_on())
        return 0;
    g->tag = get(1);
    g->count = get(2);
    g->sizes[0] = (uint8_t)get(1);
    g->sizes[1] = (uint8_t)get(1);
    g->size = get(2);
    if (g->count > NUMBERS_MOST || g->size > sizeof g->bytes)
        exit(2);
    for (size_t i = 0; i < g->count; i++)
        g->numbers[i] = (int)get(4);
    for (int i = 0; i < 2; i++)
        if (fread(g->texts[i], 1, g->sizes[i], file) != g->sizes[i])
            exit(2);
    if (fread(g->bytes, 1, g->size, file) != g->size)
        exit(2);
    return 1;
}

static void print_bytes(const char *name, const uint8_t *bytes, size_t size)
{
    printf("\n  %s:", name);
    for (size_t i = 0; i < size; i++)
        printf(" %02X", bytes[i]);
}

static void fails(const char *who, const struct given *g, const struct room *theirs)
{
    printf("setters: %s: writes other bytes for 0x%02X\n  numbers:", who, g->tag);
    for (size_t i = 0; i < g->count; i++)
        printf(" %d", g->numbers[i]);
    for (int i = 0; i < 2; i++)
        print_bytes("text", g->texts[i], g->sizes[i]);
    print_bytes("library", g->bytes, g->size);
    print_bytes("theirs", theirs->bytes, g->size);
    printf("\nsetters: FAILED\n");
    exit(1);
}

/* Digits and times, by biTStream */

static uint32_t digits(int number)
{
    uint8_t b[4] = {0, 0, 0, 0};
    dvb_bcd_set(b, (unsigned)number, 32);
    return (uint32_t)b[0] << 24 | (uint32_t)b[1] << 16 | (uint32_t)b[2] << 8 | b[3];
}

static uint16_t hours_and_minutes(int offset) { return (uint16_t)(dvb_time_encode_duration((unsigned)abs(offset) * 60) >> 8); }

/* Of a row from the MJD on. MJD 40,587 is the day of which time_t counts. */
static uint64_t moment(const int *row)
{
    if (row[4])
        return 0xFFFFFFFFFF;
    return dvb_time_encode_UTC((time_t)(row[0] - 40587) * 86400 + row[1] * 3600 + row[2] * 60 + row[3]);
}

static bool behind(const int *row) { return row[2] < 0 || row[8] < 0; }

static void code_of(uint8_t code[3], int letters)
{
    for (int i = 0; i < 3; i++)
        code[i] = (uint8_t)(letters >> (16 - 8 * i));
}

/* biTStream */

static void bitstream_network_name(const struct given *g, uint8_t *to)
{
    desc40_init(to);
    desc40_set_networkname(to, g->texts[0], g->sizes[0]);
}

static void bitstream_service_list(const struct given *g, uint8_t *to)
{
    desc41_init(to);
    desc_set_length(to, (uint8_t)(g->count / 2 * DESC41_SERVICE_SIZE));
    for (size_t i = 0; i < g->count / 2; i++) {
        uint8_t *item = desc41_get_service(to, (uint8_t)i);
        desc41n_set_sid(item, (uint16_t)g->numbers[2 * i]);
        desc41n_set_type(item, (uint8_t)g->numbers[2 * i + 1]);
    }
}

static void bitstream_stuffing(const struct given *g, uint8_t *to)
{
    desc42_init(to);
    desc_set_length(to, g->sizes[0]);
}

static void bitstream_satellite(const struct given *g, uint8_t *to)
{
    const int *n = g->numbers;
    desc43_init(to);
    desc43_set_frequency_bcd(to, digits(n[0]));
    desc43_set_position_bcd(to, (uint16_t)digits(n[1]));
    desc43_set_symbolrate_bcd(to, digits(n[2]));
    desc43_set_east(to, n[3] == 1);
    desc43_set_polarization(to, (uint8_t)n[4]);
    desc43_set_dvbs2(to, n[5] == 1);
    desc43_set_rolloff(to, (uint8_t)n[6]);
    desc43_set_modulation(to, (uint8_t)n[7]);
    desc43_set_fecinner(to, (uint8_t)n[8]);
}

static void bitstream_cable(const struct given *g, uint8_t *to)
{
    const int *n = g->numbers;
    desc44_init(to);
    desc44_set_frequency_bcd(to, digits(n[0]));
    desc44_set_symbolrate_bcd(to, digits(n[1]));
    desc44_set_fecouter(to, (uint8_t)n[2]);
    desc44_set_modulation(to, (uint8_t)n[3]);
    desc44_set_fecinner(to, (uint8_t)n[4]);
}

static void bitstream_service(const struct given *g, uint8_t *to)
{
    desc48_init(to);
    desc48_set_type(to, (uint8_t)g->numbers[0]);
    desc48_set_provider(to, g->texts[0], g->sizes[0]);
    desc48_set_service(to, g->texts[1], g->sizes[1]);
    desc48_set_length(to);
}

static void bitstream_short_event(const struct given *g, uint8_t *to)
{
    uint8_t language[3];
    code_of(language, g->numbers[0]);
    desc4d_init(to);
    desc4d_set_lang(to, language);
    desc4d_set_event_name(to, g->texts[0], g->sizes[0]);
    desc4d_set_text(to, g->texts[1], g->sizes[1]);
    desc4d_set_length(to);
}

static void bitstream_content(const struct given *g, uint8_t *to)
{
    desc54_init(to);
    desc_set_length(to, (uint8_t)(g->count / 3 * DESC54_CONTENT_SIZE));
    for (size_t i = 0; i < g->count / 3; i++) {
        uint8_t *item = desc54_get_content(to, (uint8_t)i);
        desc54n_set_content_l1(item, (uint8_t)g->numbers[3 * i]);
        desc54n_set_content_l2(item, (uint8_t)g->numbers[3 * i + 1]);
        desc54n_set_user(item, (uint8_t)g->numbers[3 * i + 2]);
    }
}

static void bitstream_rating(const struct given *g, uint8_t *to)
{
    uint8_t country[3];
    desc55_init(to);
    desc_set_length(to, (uint8_t)(g->count / 2 * DESC55_RATING_SIZE));
    for (size_t i = 0; i < g->count / 2; i++) {
        uint8_t *item = desc55_get_rating(to, (uint8_t)i);
        code_of(country, g->numbers[2 * i]);
        desc55n_set_country_code(item, country);
        desc55n_set_rating(item, (uint8_t)g->numbers[2 * i + 1]);
    }
}

static void bitstream_offset(const struct given *g, uint8_t *to)
{
    uint8_t country[3];
    desc58_init(to);
    desc_set_length(to, (uint8_t)(g->count / 9 * DESC58_LTO_SIZE));
    for (size_t i = 0; i < g->count / 9; i++) {
        const int *row = g->numbers + 9 * i;
        uint8_t *item = desc58_get_lto(to, (uint8_t)i);
        code_of(country, row[0]);
        desc58n_set_country_code(item, country);
        desc58n_set_country_region_id(item, (uint8_t)row[1]);
        desc58n_set_lto_polarity(item, behind(row));
        desc58n_set_lt_offset(item, hours_and_minutes(row[2]));
        desc58n_set_time_of_change(item, moment(row + 3));
        desc58n_set_next_offset(item, hours_and_minutes(row[8]));
    }
}

/* Its two indicators say whether a thing is used, and the bits whether it is not. */
static void bitstream_terrestrial(const struct given *g, uint8_t *to)
{
    const int *n = g->numbers;
    desc5a_init(to);
    desc5a_set_frequency(to, (uint32_t)n[0]);
    desc5a_set_bandwidth(to, (uint8_t)n[1]);
    desc5a_set_priority(to, n[2] == 1);
    desc5a_set_timeslicing(to, n[3] == 0);
    desc5a_set_mpefec(to, n[4] == 0);
    desc5a_set_constellation(to, (uint8_t)n[5]);
    desc5a_set_hierarchy(to, (uint8_t)n[6]);
    desc5a_set_coderatehp(to, (uint8_t)n[7]);
    desc5a_set_coderatelp(to, (uint8_t)n[8]);
    desc5a_set_guard(to, (uint8_t)n[9]);
    desc5a_set_transmission(to, (uint8_t)n[10]);
    desc5a_set_otherfrequency(to, (uint8_t)n[11]);
}

/* libdvbpsi: each is handed a struct, which has no room for more than its own number of items */

static dvbpsi_descriptor_t *dvbpsi_network_name(const struct given *g)
{
    dvbpsi_network_name_dr_t f = {.i_name_length = g->sizes[0]};
    memcpy(f.i_name_byte, g->texts[0], g->sizes[0]);
    return dvbpsi_GenNetworkNameDr(&f, false);
}

static dvbpsi_descriptor_t *dvbpsi_service_list(const struct given *g)
{
    dvbpsi_service_list_dr_t f = {.i_service_count = (uint8_t)(g->count / 2)};
    for (size_t i = 0; i < g->count / 2 && i < sizeof f.i_service / sizeof *f.i_service; i++) {
        f.i_service[i].i_service_id = (uint16_t)g->numbers[2 * i];
        f.i_service[i].i_service_type = (uint8_t)g->numbers[2 * i + 1];
    }
    return dvbpsi_GenServiceListDr(&f, false);
}

static dvbpsi_descriptor_t *dvbpsi_stuffing(const struct given *g)
{
    dvbpsi_stuffing_dr_t f = {.i_stuffing_length = g->sizes[0]};
    memcpy(f.i_stuffing_byte, g->texts[0], g->sizes[0]);
    return dvbpsi_GenStuffingDr(&f, false);
}

static dvbpsi_descriptor_t *dvbpsi_satellite(const struct given *g)
{
    const int *n = g->numbers;
    dvbpsi_sat_deliv_sys_dr_t f = {
        .i_frequency = digits(n[0]), .i_orbital_position = (uint16_t)digits(n[1]), .i_symbol_rate = digits(n[2]),
        .i_west_east_flag = (uint8_t)n[3], .i_polarization = (uint8_t)n[4], .i_modulation_system = (uint8_t)n[5],
        .i_roll_off = (uint8_t)n[6], .i_modulation_type = (uint8_t)n[7], .i_fec_inner = (uint8_t)n[8]};
    return dvbpsi_GenSatDelivSysDr(&f, false);
}

static dvbpsi_descriptor_t *dvbpsi_cable(const struct given *g)
{
    const int *n = g->numbers;
    dvbpsi_cable_deliv_sys_dr_t f = {.i_frequency = digits(n[0]), .i_symbol_rate = digits(n[1]), .i_fec_outer = (uint8_t)n[2],
                                     .i_modulation = (uint8_t)n[3], .i_fec_inner = (uint8_t)n[4]};
    return dvbpsi_GenCableDelivSysDr(&f, false);
}

static dvbpsi_descriptor_t *dvbpsi_service(const struct given *g)
{
    dvbpsi_service_dr_t f = {.i_service_type = (uint8_t)g->numbers[0], .i_service_provider_name_length = g->sizes[0],
                             .i_service_name_length = g->sizes[1]};
    memcpy(f.i_service_provider_name, g->texts[0], g->sizes[0]);
    memcpy(f.i_service_name, g->texts[1], g->sizes[1]);
    return dvbpsi_GenServiceDr(&f, false);
}

static dvbpsi_descriptor_t *dvbpsi_short_event(const struct given *g)
{
    dvbpsi_short_event_dr_t f = {.i_event_name_length = g->sizes[0], .i_text_length = g->sizes[1]};
    code_of(f.i_iso_639_code, g->numbers[0]);
    memcpy(f.i_event_name, g->texts[0], g->sizes[0]);
    memcpy(f.i_text, g->texts[1], g->sizes[1]);
    return dvbpsi_GenShortEventDr(&f, false);
}

static dvbpsi_descriptor_t *dvbpsi_content(const struct given *g)
{
    dvbpsi_content_dr_t f = {.i_contents_number = (uint8_t)(g->count / 3)};
    for (size_t i = 0; i < g->count / 3 && i < DVBPSI_CONTENT_DR_MAX; i++) {
        f.p_content[i].i_type = (uint8_t)(g->numbers[3 * i] << 4 | g->numbers[3 * i + 1]);
        f.p_content[i].i_user_byte = (uint8_t)g->numbers[3 * i + 2];
    }
    return dvbpsi_GenContentDr(&f, false);
}

static dvbpsi_descriptor_t *dvbpsi_rating(const struct given *g)
{
    dvbpsi_parental_rating_dr_t f = {.i_ratings_number = (uint8_t)(g->count / 2)};
    for (size_t i = 0; i < g->count / 2 && i < DVBPSI_PARENTAL_RATING_DR_MAX; i++) {
        f.p_parental_rating[i].i_country_code = (uint32_t)g->numbers[2 * i];
        f.p_parental_rating[i].i_rating = (uint8_t)g->numbers[2 * i + 1];
    }
    return dvbpsi_GenParentalRatingDr(&f, false);
}

static dvbpsi_descriptor_t *dvbpsi_offset(const struct given *g)
{
    dvbpsi_local_time_offset_dr_t f = {.i_local_time_offsets_number = (uint8_t)(g->count / 9)};
    for (size_t i = 0; i < g->count / 9 && i < DVBPSI_LOCAL_TIME_OFFSET_DR_MAX; i++) {
        const int *row = g->numbers + 9 * i;
        dvbpsi_local_time_offset_t *item = &f.p_local_time_offset[i];
        code_of(item->i_country_code, row[0]);
        item->i_country_region_id = (uint8_t)row[1];
        item->i_local_time_offset_polarity = behind(row);
        item->i_local_time_offset = hours_and_minutes(row[2]);
        item->i_time_of_change = moment(row + 3);
        item->i_next_time_offset = hours_and_minutes(row[8]);
    }
    return dvbpsi_GenLocalTimeOffsetDr(&f, false);
}

static dvbpsi_descriptor_t *dvbpsi_terrestrial(const struct given *g)
{
    const int *n = g->numbers;
    dvbpsi_terr_deliv_sys_dr_t f = {
        .i_centre_frequency = (uint32_t)n[0], .i_bandwidth = (uint8_t)n[1], .i_priority = (uint8_t)n[2], .i_time_slice_indicator = (uint8_t)n[3],
        .i_mpe_fec_indicator = (uint8_t)n[4], .i_constellation = (uint8_t)n[5], .i_hierarchy_information = (uint8_t)n[6],
        .i_code_rate_hp_stream = (uint8_t)n[7], .i_code_rate_lp_stream = (uint8_t)n[8], .i_guard_interval = (uint8_t)n[9],
        .i_transmission_mode = (uint8_t)n[10], .i_other_frequency_flag = (uint8_t)n[11]};
    return dvbpsi_GenTerrDelivSysDr(&f, false);
}

static const struct writer {
    unsigned tag;
    void (*bitstream)(const struct given *, uint8_t *);
    dvbpsi_descriptor_t *(*dvbpsi)(const struct given *);
} writers[] = {
    {0x40, bitstream_network_name, dvbpsi_network_name}, {0x41, bitstream_service_list, dvbpsi_service_list},
    {0x42, bitstream_stuffing, dvbpsi_stuffing},         {0x43, bitstream_satellite, dvbpsi_satellite},
    {0x44, bitstream_cable, dvbpsi_cable},               {0x48, bitstream_service, dvbpsi_service},
    {0x4D, bitstream_short_event, dvbpsi_short_event},   {0x54, bitstream_content, dvbpsi_content},
    {0x55, bitstream_rating, dvbpsi_rating},             {0x58, bitstream_offset, dvbpsi_offset},
    {0x5A, bitstream_terrestrial, dvbpsi_terrestrial},
};
enum { WRITERS = sizeof writers / sizeof *writers };

/* Known differences: when one shows, and what stands there in the place of the library's bytes */

static int with_roll_off(const struct given *g) { return g->numbers[6] != 0; }
static void no_roll_off(struct room *r) { r->bytes[8] &= 0xE7; }

static int with_bytes(const struct given *g) { return g->sizes[0] > 0; }
static void no_body(struct room *r) { memset(r->bytes + 2, PAINT, r->bytes[1]); }

static int up_to_83(const struct given *g) { return g->count / 2 <= 83; }
static void another_tag(struct room *r) { r->bytes[0] = 0x83; }

static int over_83(const struct given *g) { return g->count / 2 > 83; }
static void nothing(struct room *r) { memset(r, PAINT, sizeof *r); }

static int every(const struct given *g) { return g != NULL; }
static void reserved_unset(struct room *r)
{
    r->bytes[6] = PAINT;
    r->bytes[7] &= 0x0F;
}

static int over_64(const struct given *g) { return g->count / 3 > 64; }
static void first_64(struct room *r)
{
    r->bytes[1] = 64 * 2;
    memset(r->bytes + 2 + 64 * 2, PAINT, ROOM - 2 - 64 * 2);
}

static void eight_apart(struct room *r, size_t size)
{
    struct room spread;
    memset(&spread, PAINT, sizeof spread);
    memcpy(spread.bytes, r->bytes, 2);
    for (size_t i = 0; i < r->bytes[1] / size; i++)
        memcpy(spread.bytes + 2 + 8 * i, r->bytes + 2 + size * i, size);
    *r = spread;
}

static int two_contents(const struct given *g) { return g->count / 3 > 1; }
static void contents_apart(struct room *r) { eight_apart(r, 2); }

static int two_ratings(const struct given *g) { return g->count / 2 > 1; }
static void ratings_apart(struct room *r) { eight_apart(r, 4); }

/* Of one descriptor several may show: they are put in from the first to the last. */
struct known {
    unsigned tag;
    const char *reason;
    int (*shows)(const struct given *);
    void (*put_in)(struct room *);
    unsigned long met;
};

static struct known of_bitstream[] = {
    {0x42, "there is no setter of stuffing bytes: tag and length alone are written", with_bytes, no_body, 0},
    {0x43, "desc43_set_rolloff keeps the bits of `0x03 << 3` of what it is given, which has none: a roll_off is written as 0", with_roll_off, no_roll_off, 0},
    {0, NULL, NULL, NULL, 0},
};

static struct known of_libdvbpsi[] = {
    {0x41, "a service list is written under the tag 0x83", up_to_83, another_tag, 0},
    {0x41, "a service list of 84 or 85 services is not written", over_83, nothing, 0},
    {0x44, "of a cable's reserved bits eight are left as the memory was, and four are zeros", every, reserved_unset, 0},
    {0x54, "of more than 64 contents the first 64 are written", over_64, first_64, 0},
    {0x54, "contents stand eight bytes apart, past the end of the memory, and what is between them is left as it was", two_contents, contents_apart, 0},
    {0x55, "so do ratings", two_ratings, ratings_apart, 0},
    {0, NULL, NULL, NULL, 0},
};

static void compare(const char *who, struct known *known, const struct given *g, const struct room *theirs)
{
    struct room expected;
    memset(&expected, PAINT, sizeof expected);
    memcpy(expected.bytes, g->bytes, g->size);
    if (memcmp(theirs, &expected, sizeof expected) == 0)
        return;
    for (struct known *k = known; k->reason; k++) {
        if (k->tag == g->tag && k->shows(g)) {
            k->put_in(&expected);
            k->met++;
        }
    }
    if (memcmp(theirs, &expected, sizeof expected) != 0)
        fails(who, g, theirs);
}

static void compare_both(const struct writer *w, const struct given *g)
{
    struct room theirs;
    memset(&theirs, PAINT, sizeof theirs);
    w->bitstream(g, theirs.bytes);
    compare("biTStream", of_bitstream, g, &theirs);
    memset(&theirs, PAINT, sizeof theirs);
    dvbpsi_descriptor_t *made = w->dvbpsi(g);
    if (made) {
        theirs.bytes[0] = made->i_tag;
        theirs.bytes[1] = made->i_length;
        memcpy(theirs.bytes + 2, made->p_data, ROOM - 2);
        dvbpsi_DeleteDescriptors(made);
    }
    compare("libdvbpsi", of_libdvbpsi, g, &theirs);
}

/* Whether each was met. */
static int print_known(const char *who, const struct known *known)
{
    int met = 1;
    for (const struct known *k = known; k->reason; k++) {
        printf("setters: %s: known difference, %lu times: 0x%02X: %s\n", who, k->met, k->tag, k->reason);
        met &= k->met > 0;
    }
    return met;
}

int main(int argc, char **argv)
{
    static struct given g;
    char word[8];
    unsigned long descriptors = 0, of_tag[WRITERS] = {0};
    if (argc != 2 || !(file = fopen(argv[1], "rb")) || fread(word, 1, 8, file) != 8 || memcmp(word, "written ", 8) != 0) {
        fprintf(stderr, "usage: %s FILE\n", argv[0]);
        return 2;
    }
    for (; next(&g); descriptors++) {
        int i = 0;
        while (i < WRITERS && writers[i].tag != g.tag)
            i++;
        if (i == WRITERS)
            return 2;
        compare_both(&writers[i], &g);
        of_tag[i]++;
    }
    int met = print_known("biTStream", of_bitstream) & print_known("libdvbpsi", of_libdvbpsi);
    for (int i = 0; i < WRITERS; i++)
        met &= of_tag[i] > 0;
    printf("setters: biTStream and libdvbpsi write the %lu descriptors, byte for byte: %s\n", descriptors,
           met ? "no other difference" : "FAILED: no other difference, but too few were met");
    return !met;
}
