#include "second.h"
#include "second_shared.h"

#include <string.h>

/* Times */

/* "64 hour above 23, minute or second above 59". Document 02: "64 and 65 carry the field's place too". */
static struct second_why clock_field(const uint8_t *first, const uint8_t *field, unsigned most, unsigned *value)
{
    uint32_t number;
    struct second_why why = bcd(first, field, 2, &number);
    if (why.number)
        return why;
    *value = number;
    if (number > most)
        why = (struct second_why){64, (unsigned)(field - first), 0};
    return why;
}

/* "A time is MJD 16 bits, six BCD digits" */
struct second_time second_time(const uint8_t b[5])
{
    struct second_time t;
    memset(&t, 0, sizeof t);
    /* "Forty ones mean "undefined", before any check" */
    if (b[0] == 0xFF && b[1] == 0xFF && b[2] == 0xFF && b[3] == 0xFF && b[4] == 0xFF) {
        t.undefined = 1;
        return t;
    }
    /* "else MJD, hour, minute and second are four fields"; "65 MJD below 15,079" */
    t.mjd = two(b);
    if (t.mjd < 15079)
        t.why.number = 65;
    if (!t.why.number)
        t.why = clock_field(b, b + 2, 23, &t.hour);
    if (!t.why.number)
        t.why = clock_field(b, b + 3, 59, &t.minute);
    if (!t.why.number)
        t.why = clock_field(b, b + 4, 59, &t.second);
    return t;
}

/* The day after, in the Gregorian calendar. */
static struct second_date day_after(struct second_date d)
{
    static const unsigned lengths[12] = {31, 28, 31, 30, 31, 30, 31, 31, 30, 31, 30, 31};
    int leap = (d.year % 4 == 0 && d.year % 100 != 0) || d.year % 400 == 0;
    unsigned length = lengths[d.month - 1] + (d.month == 2 && leap ? 1 : 0);
    d.day++;
    if (d.day > length) {
        d.day = 1;
        d.month++;
    }
    if (d.month > 12) {
        d.month = 1;
        d.year++;
    }
    return d;
}

/* "the date is the Gregorian one of the MJD": days counted from MJD 15,079, 1900-03-01; each is counted once and kept. */
struct second_date second_date(unsigned mjd)
{
    static struct second_date known[65536];
    static unsigned counted = 15079;
    if (mjd < 15079) {
        struct second_date none = {{65, 0, 0}, 0, 0, 0};
        return none;
    }
    if (counted == 15079) {
        struct second_date first = {{0, 0, 0}, 1900, 3, 1};
        known[15079] = first;
    }
    for (; counted < mjd; counted++)
        known[counted + 1] = day_after(known[counted]);
    return known[mjd];
}

/* "A duration's hours go to 99; hour, minute and second of an offset or duration are fields of their own too." */
struct second_duration second_duration(const uint8_t b[3])
{
    struct second_duration d;
    memset(&d, 0, sizeof d);
    d.why = clock_field(b, b, 99, &d.hours);
    if (!d.why.number)
        d.why = clock_field(b, b + 1, 59, &d.minutes);
    if (!d.why.number)
        d.why = clock_field(b, b + 2, 59, &d.seconds);
    return d;
}

/* "An offset is signed minutes (polarity 1 is behind UTC); 1 with 0000 is zero." */
struct second_offset second_offset(int behind, const uint8_t b[2])
{
    struct second_offset o;
    unsigned h = 0, m = 0;
    memset(&o, 0, sizeof o);
    o.why = clock_field(b, b, 23, &h);
    if (!o.why.number)
        o.why = clock_field(b, b + 1, 59, &m);
    if (!o.why.number)
        o.minutes = behind ? -(int)(h * 60 + m) : (int)(h * 60 + m);
    return o;
}
