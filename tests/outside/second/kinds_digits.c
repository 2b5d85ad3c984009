#include "kinds.h"
#include "lohitunga.h"
#include "tally.h"

#include <string.h>

/*
 * Which digit, which field: what 63, 64 and 65 tell is looked up in the caller's own bytes, and the second implementation is not
 * asked. The field told must be wrong, in the way and at the half byte that are told, and every field in front of it right.
 */

enum { MJD = 0, FIRST_MJD = 15079, TIME_FIELDS = 4, TRIES = 64 };

/* `digits` BCD digits from the place on, their number below `limit` where that is not 0; or an MJD, which has none. */
struct field { unsigned place, digits, limit; };

struct told { unsigned number; size_t place; unsigned digit; };

#define TOLD(answer) ((struct told){(answer).number, (answer).place, (answer).digit})

struct reading {
    const char *name, *numbers;                 /* and what must be met */
    struct told (*ask)(const uint8_t *bytes, size_t size, size_t index);
    uint8_t tag;                                /* 0 for what is no descriptor */
    unsigned size, most;                        /* the bytes of an item, and how many items there can be */
    unsigned count;                             /* the fields that can be refused, from left to right, by their places in the item */
    struct field fields[8];
};

/* What is put to the library. Places are told from `body` on; the item that is asked for begins at `item`. */
struct asked {
    const struct reading *reading;
    uint8_t bytes[2 + 255];
    size_t size, index;
    const uint8_t *body;
    uint8_t *item;
};

/* Looking it up */

static unsigned half_byte(const uint8_t *from, size_t i) { return i % 2 == 0 ? from[i / 2] / 16 : from[i / 2] % 16; }

static unsigned mjd_at(const uint8_t *at) { return at[0] * 256u + at[1]; }

/* How many digits stand at the field's start, up to the first that is above 9. */
static unsigned good_digits(const struct field *f, const uint8_t *at)
{
    unsigned i = 0;
    while (i < f->digits && half_byte(at, i) <= 9)
        i++;
    return i;
}

static unsigned number_at(const struct field *f, const uint8_t *at)
{
    unsigned number = 0;
    for (unsigned i = 0; i < f->digits; i++)
        number = number * 10 + half_byte(at, i);
    return number;
}

static int is_right(const struct field *f, const uint8_t *at)
{
    if (f->digits == MJD)
        return mjd_at(at) >= FIRST_MJD;
    return good_digits(f, at) == f->digits && (f->limit == 0 || number_at(f, at) < f->limit);
}

/* Forty ones, in which nothing is refused. */
static int undefined(const struct field *f, const uint8_t *at)
{
    return f->digits == MJD && memcmp(at, "\xFF\xFF\xFF\xFF\xFF", 5) == 0;
}

static void look_up(const struct asked *c, struct told told)
{
    const struct field *f = c->reading->fields, *end = f + c->reading->count;
    for (; f < end; f++) {
        const uint8_t *at = c->item + f->place;
        if (undefined(f, at)) {
            f += TIME_FIELDS - 1;
            continue;
        }
        if (told.number && told.place == (size_t)(at - c->body))
            break;
        must(is_right(f, at), told.number ? "each field in front of the place that is told is right" : "each field of what is not refused is right");
    }
    must(told.number || told.place == 0, "what is not refused tells no place");
    must(told.number == 63 || told.digit == 0, "63 alone tells a digit");
    if (told.number == 0)
        return;
    must(f < end, "a field that can be refused begins at the place that is told");
    const uint8_t *at = c->body + told.place;
    switch (told.number) {
    case 63:
        must(told.digit < f->digits, "the digit that is told is one of the field's");
        must(half_byte(at, told.digit) > 9, "the half byte that is told is above 9");
        must(good_digits(f, at) == told.digit, "each digit in front of it is 9 or less");
        break;
    case 64:
        must(f->limit > 0 && good_digits(f, at) == f->digits, "two digits stand at the place of 64");
        must(number_at(f, at) >= f->limit, "their number is too large for the hour, minute or second there");
        break;
    case 65:
        must(f->digits == MJD && mjd_at(at) < FIRST_MJD, "an MJD below 15,079 stands at the place of 65");
        break;
    default:
        must(0, "the number is 0 or 63 to 65");
    }
}

/* Puts it to the library and looks up what is told; the number. */
static unsigned look_up_answer(const struct asked *c, enum placing p)
{
    call_begins(c->reading->name, p);
    call_piece("bytes", c->bytes, c->size);
    call_number("index", (long long)c->index);
    struct told told = c->reading->ask(lend(c->bytes, c->size, p), c->size, c->index);
    back();
    call_number("number", told.number);
    call_number("place", (long long)told.place);
    call_number("digit", told.digit);
    look_up(c, told);
    met_number(c->reading->name, told.number);
    return told.number;
}

/* The calls */

static struct told ask_satellite(const uint8_t *b, size_t n, size_t index)
{
    (void)index;
    lohitunga_satellite_answer a = lohitunga_read_satellite(b, n);
    return TOLD(a);
}

static struct told ask_cable(const uint8_t *b, size_t n, size_t index)
{
    (void)index;
    lohitunga_cable_answer a = lohitunga_read_cable(b, n);
    return TOLD(a);
}

static struct told ask_local(const uint8_t *b, size_t n, size_t index)
{
    lohitunga_local_time_offset_answer a = lohitunga_read_local_time_offset(b, n, index);
    return TOLD(a);
}

static struct told ask_time(const uint8_t *b, size_t n, size_t index)
{
    (void)index;
    lohitunga_time_answer a = lohitunga_read_time((uint16_t)mjd_at(b), b[2], b[3], b[4]), from = lohitunga_time_from(b, n);
    must(from.number == a.number && from.place == a.place && from.digit == a.digit, "lohitunga_time_from tells what lohitunga_read_time does");
    return TOLD(a);
}

static struct told ask_duration(const uint8_t *b, size_t n, size_t index)
{
    (void)index;
    lohitunga_duration_answer a = lohitunga_read_duration(b[0], b[1], b[2]), from = lohitunga_duration_from(b, n);
    must(from.number == a.number && from.place == a.place && from.digit == a.digit,
         "lohitunga_duration_from tells what lohitunga_read_duration does");
    return TOLD(a);
}

/* The index is the polarity. */
static struct told ask_offset(const uint8_t *b, size_t n, size_t index)
{
    (void)n;
    lohitunga_offset_answer a = lohitunga_read_offset((uint8_t)index, b[0], b[1]);
    return TOLD(a);
}

/* The layouts of EN 300 468, 6.2.13.2, 6.2.13.1 and 6.2.20; a time and a duration as in 5.2.4. A time has its MJD and the three fields behind it. */
static const struct reading readings[] = {
    {"satellite, digits", "0 63", ask_satellite, 0x43, 11, 1, 3, {{0, 8, 0}, {4, 4, 0}, {7, 7, 0}}},
    {"cable, digits", "0 63", ask_cable, 0x44, 11, 1, 2, {{0, 8, 0}, {7, 7, 0}}},
    {"local offset, digits", "0 63 64 65", ask_local, 0x58, 13, 19, 8,
     {{4, 2, 24}, {5, 2, 60}, {6, MJD, 0}, {8, 2, 24}, {9, 2, 60}, {10, 2, 60}, {11, 2, 24}, {12, 2, 60}}},
    {"time, digits", "0 63 64 65", ask_time, 0, 5, 1, 4, {{0, MJD, 0}, {2, 2, 24}, {3, 2, 60}, {4, 2, 60}}},
    {"duration, digits", "0 63 64", ask_duration, 0, 3, 1, 3, {{0, 2, 100}, {1, 2, 60}, {2, 2, 60}}},
    {"offset, digits", "0 63 64", ask_offset, 0, 2, 1, 2, {{0, 2, 24}, {1, 2, 60}}},
};

/* Making it */

static void put_half_byte(uint8_t *to, unsigned i, unsigned value)
{
    to[i / 2] = (uint8_t)(i % 2 == 0 ? value * 16 + to[i / 2] % 16 : to[i / 2] / 16 * 16 + value);
}

static void put_number(uint8_t *to, unsigned number) { *to = (uint8_t)(number / 10 * 16 + number % 10); }

static void put_mjd(uint8_t *to, unsigned mjd)
{
    to[0] = (uint8_t)(mjd / 256);
    to[1] = (uint8_t)mjd;
}

static void put_right(struct dice *d, const struct field *f, uint8_t *to)
{
    if (f->digits == MJD)
        put_mjd(to, one_in(d, 8) ? FIRST_MJD : between(d, FIRST_MJD, 65535));
    else if (f->limit > 0)
        put_number(to, one_in(d, 8) ? f->limit - 1 : below(d, f->limit));
    else
        for (unsigned i = 0; i < f->digits; i++)
            put_half_byte(to, i, below(d, 10));
}

static void put_wrong(struct dice *d, const struct field *f, uint8_t *to)
{
    if (f->digits == MJD)
        put_mjd(to, one_in(d, 4) ? FIRST_MJD - 1 : below(d, FIRST_MJD));
    else if (f->limit > 0 && f->limit < 100 && one_in(d, 4))
        put_number(to, one_in(d, 4) ? f->limit : between(d, f->limit, 99));
    else {
        unsigned value = between(d, 10, 15);
        put_half_byte(to, below(d, f->digits), value);
    }
}

/* Any bytes, but for the fields of the item that is asked for: they are right. */
static void make_right(struct dice *d, const struct reading *r, struct asked *c)
{
    unsigned items = between(d, 1, r->most), head = r->tag ? 2 : 0;
    c->reading = r;
    c->size = head + items * r->size;
    c->index = r->tag ? below(d, items) : below(d, 2);
    c->body = c->bytes + head;
    c->item = c->bytes + head + (r->tag ? c->index * r->size : 0);
    fill(d, c->bytes, c->size);
    if (r->tag) {
        c->bytes[0] = r->tag;
        c->bytes[1] = (uint8_t)(c->size - 2);
    }
    for (unsigned i = 0; i < r->count; i++)
        put_right(d, &r->fields[i], c->item + r->fields[i].place);
}

/* The same with up to three faults, in fields of any order, also in one that was undefined; and some with none. */
static void make_wrong(struct dice *d, const struct reading *r, struct asked *c)
{
    make_right(d, r, c);
    for (unsigned i = 0; i < r->count; i++)
        if (r->fields[i].digits == MJD && one_in(d, 8))
            memset(c->item + r->fields[i].place, 0xFF, 5);
    for (unsigned faults = one_in(d, 16) ? 0 : between(d, 1, 3); faults > 0; faults--) {
        const struct field *f = &r->fields[below(d, r->count)];
        put_wrong(d, f, c->item + f->place);
    }
}

static void prepare_digits(void)
{
    for (unsigned i = 0; i < COUNT(readings); i++)
        must_meet(readings[i].name, readings[i].numbers);
}

/* One field wrong in each way that there is: each digit with each value above 9, each number that is too large, MJDs about the first day. */
static void all_digits(void)
{
    struct dice d = dice_of(0, 0, 0);
    struct asked c;
    for (const struct reading *r = readings; r < readings + COUNT(readings); r++)
        for (const struct field *f = r->fields; f < r->fields + r->count; f++) {
            for (unsigned i = 0; i < f->digits * 6; i++) {
                make_right(&d, r, &c);
                put_half_byte(c.item + f->place, i / 6, 10 + i % 6);
                must(look_up_answer(&c, AT_END) == 63, "a digit above 9 is refused with 63");
            }
            for (unsigned number = f->limit; f->limit > 0 && number < 100; number++) {
                make_right(&d, r, &c);
                put_number(c.item + f->place, number);
                must(look_up_answer(&c, AT_END) == 64, "an hour, minute or second that is too large is refused with 64");
            }
            for (unsigned mjd = FIRST_MJD - 10; f->digits == MJD && mjd < FIRST_MJD + 10; mjd++) {
                make_right(&d, r, &c);
                put_mjd(c.item + f->place, mjd);
                must(look_up_answer(&c, AT_END) == (mjd < FIRST_MJD ? 65 : 0), "an MJD below 15,079 is refused with 65");
            }
        }
}

/* Of each reading one that is refused with 63, and what comes before it. */
static void one_digit(struct dice *d)
{
    struct asked c;
    for (const struct reading *r = readings; r < readings + COUNT(readings); r++) {
        unsigned tries = 0;
        do {
            must(tries++ < TRIES, "of so many readings with faults in them one is refused with 63");
            make_wrong(d, r, &c);
        } while (look_up_answer(&c, below(d, PLACINGS)) != 63);
    }
}

const struct kind kind_digits = {"digits", 1, prepare_digits, all_digits, one_digit};
