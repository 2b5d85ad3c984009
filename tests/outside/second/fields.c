#include "fields.h"
#include "kinds.h"

#include <stdlib.h>
#include <string.h>

/* Fields and writers */

#define U8(name, most) {name, 0, most, 0, UINT8_MAX}
#define U32(name, most) {name, 0, most, 0, UINT32_MAX}
#define I32(name, least, most) {name, least, most, INT32_MIN, INT32_MAX}

static const struct field of_service[] = {U8("service_type", 255)};
static const struct field of_event[] = {U32("language_code", 0xFFFFFF)};
static const struct field of_service_list[] = {I32("service_id", 0, 65535), I32("service_type", 0, 255)};
static const struct field of_content[] = {I32("content_nibble_level_1", 0, 15), I32("content_nibble_level_2", 0, 15), I32("user_byte", 0, 255)};
static const struct field of_rating[] = {I32("country_code", 0, 0xFFFFFF), I32("rating", 0, 255)};
const struct field of_local[] = {
    I32("country_code", 0, 0xFFFFFF), I32("country_region_id", 0, 63), I32("local_time_offset", -1439, 1439), I32("mjd", 15079, 65535),
    I32("hour", 0, 23), I32("minute", 0, 59), I32("second", 0, 59), I32("undefined", 0, 1), I32("next_time_offset", -1439, 1439)};
const struct field of_satellite[] = {
    U32("frequency", 99999999), U32("orbital_position", 9999), U32("symbol_rate", 9999999), U8("west_east_flag", 1), U8("polarization", 3),
    U8("modulation_system", 1), U8("roll_off", 3), U8("modulation_type", 3), U8("fec_inner", 15)};
static const struct field of_cable[] = {
    U32("frequency", 99999999), U32("symbol_rate", 9999999), U8("fec_outer", 15), U8("modulation", 255), U8("fec_inner", 15)};
static const struct field of_terrestrial[] = {
    U32("centre_frequency", UINT32_MAX), U8("bandwidth", 7), U8("priority", 1), U8("time_slicing_indicator", 1), U8("mpe_fec_indicator", 1),
    U8("constellation", 3), U8("hierarchy_information", 7), U8("code_rate_hp_stream", 7), U8("code_rate_lp_stream", 7),
    U8("guard_interval", 3), U8("transmission_mode", 3), U8("other_frequency_flag", 1)};

const struct writer writers[11] = {
    {"write network name", "112, network name", 0x40, TEXTS, NULL, 0, 1, 0},
    {"write service list", "112, service list", 0x41, LIST, of_service_list, COUNT(of_service_list), 0, 3},
    {"write stuffing", "112, stuffing", 0x42, TEXTS, NULL, 0, 1, 0},
    {"write satellite", "112, satellite", 0x43, SYSTEM, of_satellite, COUNT(of_satellite), 0, 11},
    {"write cable", "112, cable", 0x44, SYSTEM, of_cable, COUNT(of_cable), 0, 11},
    {"write service", "112, service", 0x48, TEXTS, of_service, COUNT(of_service), 2, 3},
    {"write short event", "112, short event", 0x4D, TEXTS, of_event, COUNT(of_event), 2, 5},
    {"write content", "112, content", 0x54, LIST, of_content, COUNT(of_content), 0, 2},
    {"write rating", "112, rating", 0x55, LIST, of_rating, COUNT(of_rating), 0, 4},
    {"write local offset", "112, local offset", 0x58, LIST, of_local, COUNT(of_local), 0, 13},
    {"write terrestrial", "112, terrestrial", 0x5A, SYSTEM, of_terrestrial, COUNT(of_terrestrial), 0, 11}};

int can_be_outside(const struct field *f) { return f->least != f->c_least || f->most != f->c_most; }

size_t most_items(const struct writer *w) { return BODY_MOST / w->bytes; }

size_t body_of(const struct given *g)
{
    switch (g->w->form) {
    case TEXTS: return g->w->bytes + g->parts[0].size + (g->w->texts > 1 ? g->parts[1].size : 0);
    case LIST: return g->count / g->w->field_count * g->w->bytes;
    default: return g->w->bytes;
    }
}

/* Fields by the dice */

static long long any_inside(struct dice *d, const struct field *f)
{
    switch (below(d, 8)) {
    case 0: return f->least;
    case 1: return f->most;
    case 2: return f->most - (f->most > f->least);
    default: return f->least + (long long)(dice_any(d) % (unsigned long long)(f->most - f->least + 1));
    }
}

/* Of a field that can be outside: next to its range, at the ends of C's, or anywhere. */
static long long any_outside(struct dice *d, const struct field *f)
{
    for (;;) {
        long long anywhere = f->c_least + (long long)(dice_any(d) % (unsigned long long)(f->c_most - f->c_least + 1));
        const long long some[] = {f->most + 1, f->least - 1, f->c_most, f->c_least, anywhere};
        long long value = some[below(d, COUNT(some))];
        if (value >= f->c_least && value <= f->c_most && (value < f->least || value > f->most))
            return value;
    }
}

/* How many, of which `most` can be written. */
static size_t any_number(struct dice *d, size_t most)
{
    switch (below(d, 12)) {
    case 0: return most - 1;
    case 1:
    case 2: return most;
    case 3: return most + 1;
    case 4: return most + 2;
    case 5: return most + below(d, (unsigned)most + 1);
    case 6: return 0;
    default: return below(d, most < 40 ? 4 : 24);
    }
}

void make_row(struct dice *d, const struct writer *w, int32_t *row)
{
    for (unsigned k = 0; k < w->field_count; k++)
        row[k] = (int32_t)any_inside(d, &w->fields[k]);
    if (w->fields != of_local)
        return;
    int sign = one_in(d, 2) ? 1 : -1;
    row[OFFSET] = one_in(d, 6) ? 0 : sign * abs(row[OFFSET]);
    row[NEXT] = one_in(d, 6) ? 0 : sign * abs(row[NEXT]);
    if (row[UNDEFINED])
        memset(row + MJD, 0, (UNDEFINED - MJD) * sizeof *row);
}

/* One text, or two that share the body. */
static void make_texts(struct dice *d, struct given *g)
{
    size_t all = any_number(d, BODY_MOST - g->w->bytes), first = all, second = 0;
    if (g->w->texts > 1) {
        static const unsigned edges[] = {0, 0, 255, 256};
        first = one_in(d, 3) ? edges[below(d, 4)] : one_in(d, 4) ? all : below(d, (unsigned)all + 1);
        first = first > all ? all : first;
        second = all - first;
    }
    g->size = (first > second ? first : second) + (one_in(d, 3) ? 0 : below(d, 40));
    fill(d, g->bytes, g->size);
    g->parts[0] = (lohitunga_part){below(d, (unsigned)(g->size - first) + 1), first};
    g->parts[1] = (lohitunga_part){below(d, (unsigned)(g->size - second) + 1), second};
}

void make_fields(struct dice *d, struct given *g)
{
    for (unsigned i = 0; i < g->w->field_count; i++)
        g->fields[i] = any_inside(d, &g->w->fields[i]);
    if (g->w->fields == of_satellite && g->fields[MODULATION_SYSTEM] == 0)
        g->fields[ROLL_OFF] = 0;
}

/* What can be written, or would be too long. */
void make_given(struct dice *d, struct given *g, const struct writer *w)
{
    g->w = w;
    g->size = g->count = 0;
    g->behind = 0;
    if (w->form != LIST)
        make_fields(d, g);
    if (w->form == TEXTS)
        make_texts(d, g);
    if (w->form == LIST) {
        g->count = any_number(d, most_items(w)) * w->field_count;
        for (size_t i = 0; i < g->count; i += w->field_count)
            make_row(d, w, g->numbers + i);
    }
}

/* One thing in it outside its layout; the name of that, or NULL where no such thing can be. */

static const char *spoil_part(struct dice *d, lohitunga_part *p, size_t size)
{
    size_t at;
    switch (below(d, 3)) {
    case 0:
        p->start = below(d, (unsigned)size + 1);
        p->size = size - p->start + 1 + (one_in(d, 2) ? 0 : below(d, 300));
        return "past-the-bytes";
    case 1:
        p->start = one_in(d, 4) ? SIZE_MAX : size + 1 + (one_in(d, 2) ? 0 : below(d, 300));
        p->size = p->start == SIZE_MAX || one_in(d, 2) ? 0 : below(d, 300);
        return "begins-past-them";
    default: /* the sum is a place in the bytes */
        at = 1 + below(d, (unsigned)size + 1);
        p->start = one_in(d, 2) ? at : SIZE_MAX - below(d, (unsigned)at);
        p->size = p->start == at ? SIZE_MAX - below(d, (unsigned)at) : at;
        return "wraps-round";
    }
}

static const char *spoil_texts(struct dice *d, struct given *g)
{
    const struct field *f = g->w->fields;
    if (f && can_be_outside(f) && one_in(d, 3)) {
        g->fields[0] = any_outside(d, f);
        return f->name;
    }
    return spoil_part(d, &g->parts[below(d, g->w->texts)], g->size);
}

static const char *spoil_system(struct dice *d, struct given *g)
{
    int satellite = g->w->fields == of_satellite;
    unsigned i = below(d, g->w->field_count);
    if (satellite && one_in(d, 6)) {
        g->fields[MODULATION_SYSTEM] = 0;
        g->fields[ROLL_OFF] = between(d, 1, 3);
        return "roll_off-of-DVB-S";
    }
    if (!can_be_outside(&g->w->fields[i]))
        return NULL;
    g->fields[i] = any_outside(d, &g->w->fields[i]);
    if (satellite && i == ROLL_OFF)
        g->fields[MODULATION_SYSTEM] = 1;
    if (satellite && i == MODULATION_SYSTEM && one_in(d, 2))
        g->fields[ROLL_OFF] = 0;
    return g->w->fields[i].name;
}

/* What is wrong of two fields together. */
static const char *spoil_local(struct dice *d, int32_t *row)
{
    if (one_in(d, 2)) {
        int sign = one_in(d, 2) ? 1 : -1;
        row[OFFSET] = sign * (int32_t)between(d, 1, one_in(d, 2) ? 1 : 1439);
        row[NEXT] = -sign * (int32_t)between(d, 1, one_in(d, 2) ? 1 : 1439);
        return "opposite-signs";
    }
    unsigned one = between(d, MJD, SECOND), whole = one_in(d, 2);
    for (unsigned k = MJD; k <= SECOND; k++)
        row[k] = whole || k == one ? (int32_t)any_inside(d, &of_local[k]) : 0;
    row[one] += row[one] == 0;
    row[UNDEFINED] = 1;
    return "beside-undefined";
}

static const char *spoil_row(struct dice *d, const struct writer *w, int32_t *row)
{
    unsigned k = below(d, w->field_count);
    if (w->fields == of_local && one_in(d, 3))
        return spoil_local(d, row);
    if (w->fields == of_local && row[UNDEFINED] && k >= MJD && k <= SECOND) {
        row[UNDEFINED] = 0;
        for (unsigned i = MJD; i <= SECOND; i++)
            row[i] = (int32_t)any_inside(d, &w->fields[i]);
    }
    row[k] = (int32_t)any_outside(d, &w->fields[k]);
    /* of an offset its range alone is wrong, not the sign beside the other */
    if (w->fields == of_local && (k == OFFSET || k == NEXT)) {
        int32_t *other = row + (k == OFFSET ? NEXT : OFFSET);
        *other = row[k] < 0 ? -abs(*other) : abs(*other);
    }
    return w->fields[k].name;
}

static const char *spoil_list(struct dice *d, struct given *g)
{
    size_t each = g->w->field_count, items = g->count / each, most = most_items(g->w), bad;
    make_row(d, g->w, g->numbers + g->count);
    if (one_in(d, 6)) {
        g->count += between(d, 1, (unsigned)each - 1);
        return "no-whole-row";
    }
    if (items == 0) {
        g->count += each;
        items++;
    }
    bad = one_in(d, 3) ? items - 1 : below(d, (unsigned)items);
    if (items > most && one_in(d, 2))
        bad = between(d, (unsigned)most, (unsigned)items - 1);
    g->behind = bad >= most;
    return spoil_row(d, g->w, g->numbers + bad * each);
}

const char *spoil_given(struct dice *d, struct given *g)
{
    return g->w->form == TEXTS ? spoil_texts(d, g) : g->w->form == LIST ? spoil_list(d, g) : spoil_system(d, g);
}

