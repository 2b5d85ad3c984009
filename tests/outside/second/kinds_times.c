#include "kinds.h"
#include "lohitunga.h"
#include "second.h"
#include "tally.h"

#include <string.h>

/* Times */

static void prepare_times(void)
{
    must_meet("time", "0 63 64 65 undefined");
    must_meet("duration", "0 63 64");
    must_meet("offset", "0 63 64");
    must_meet("date", "0 65");
}

static void compare_time(const uint8_t b[5])
{
    struct second_time s = second_time(b);
    call_begins("lohitunga_read_time", AT_END);
    call_piece("time", b, 5);
    lohitunga_time_answer a = lohitunga_read_time((uint16_t)(b[0] * 256 + b[1]), b[2], b[3], b[4]);
    long long library[] = {WHY(a), a.time.undefined, a.time.mjd, a.time.hour, a.time.minute, a.time.second};
    long long second[] = {WHY(s.why), s.undefined, OR_0(s.why.number, s.mjd), OR_0(s.why.number, s.hour), OR_0(s.why.number, s.minute),
                          OR_0(s.why.number, s.second)};
    SAME("number place digit undefined mjd hour minute second", library, second);
    for (enum placing p = 0; p < PLACINGS; p++) {
        call_begins("lohitunga_time_from", p);
        call_piece("time", b, 5);
        lohitunga_time_answer from = lohitunga_time_from(lend(b, 5, p), 5);
        long long told[] = {WHY(from), from.time.undefined, from.time.mjd, from.time.hour, from.time.minute, from.time.second};
        SAME("number place digit undefined mjd hour minute second", told, second);
        back();
    }
    if (s.undefined)
        met_word("time", "undefined", 1);
    else
        met_number("time", s.why.number);
}

static void compare_duration(const uint8_t b[3])
{
    struct second_duration s = second_duration(b);
    call_begins("lohitunga_read_duration", AT_END);
    call_piece("duration", b, 3);
    lohitunga_duration_answer a = lohitunga_read_duration(b[0], b[1], b[2]);
    long long library[] = {WHY(a), a.duration.hour, a.duration.minute, a.duration.second};
    long long second[] = {WHY(s.why), OR_0(s.why.number, s.hours), OR_0(s.why.number, s.minutes), OR_0(s.why.number, s.seconds)};
    SAME("number place digit hour minute second", library, second);
    for (enum placing p = 0; p < PLACINGS; p++) {
        call_begins("lohitunga_duration_from", p);
        call_piece("duration", b, 3);
        lohitunga_duration_answer from = lohitunga_duration_from(lend(b, 3, p), 3);
        long long told[] = {WHY(from), from.duration.hour, from.duration.minute, from.duration.second};
        SAME("number place digit hour minute second", told, second);
        back();
    }
    met_number("duration", s.why.number);
}

static void compare_offset(uint8_t behind, uint8_t hour, uint8_t minute)
{
    struct second_offset s = second_offset(behind != 0, (const uint8_t[]){hour, minute});
    call_begins("lohitunga_read_offset", AT_END);
    call_number("behind", behind);
    call_number("hour", hour);
    call_number("minute", minute);
    lohitunga_offset_answer a = lohitunga_read_offset(behind, hour, minute);
    long long library[] = {WHY(a), a.minutes};
    long long second[] = {WHY(s.why), OR_0(s.why.number, s.minutes)};
    SAME("number place digit minutes", library, second);
    met_number("offset", s.why.number);
}

static void compare_date(unsigned mjd)
{
    struct second_date s = second_date(mjd);
    call_begins("lohitunga_read_date", AT_END);
    call_number("mjd", mjd);
    lohitunga_date_answer a = lohitunga_read_date((uint16_t)mjd);
    long long library[] = {WHY(a), a.date.year, a.date.month, a.date.day};
    long long second[] = {WHY(s.why), s.year, s.month, s.day};
    SAME("number place digit year month day", library, second);
    met_number("date", s.why.number);
}

/* Every MJD, alone and with a clock; every hour and minute, as an offset either way, in a time and in a duration. */
static void all_times(void)
{
    for (unsigned mjd = 0; mjd < 65536; mjd++) {
        uint8_t time[5] = {(uint8_t)(mjd / 256), (uint8_t)mjd, 0x23, 0x59, 0x59};
        compare_date(mjd);
        compare_time(time);
        time[2] = time[3] = time[4] = 0xFF;
        compare_time(time);
    }
    for (unsigned i = 0; i < 65536; i++) {
        uint8_t high = (uint8_t)(i / 256), low = (uint8_t)i;
        uint8_t time[5] = {0xC0, 0x79, high, low, (uint8_t)(high ^ low)};
        compare_offset(0, high, low);
        compare_offset((uint8_t)(1 + i % 255), high, low);
        compare_time(time);
        compare_duration(time + 2);
    }
}

static void one_time(struct dice *d)
{
    uint8_t b[5];
    fill(d, b, 5);
    for (int i = 2; i < 5; i++) {
        unsigned most = i == 2 ? 26 : 62, value = below(d, most);
        if (!one_in(d, 6))
            b[i] = (uint8_t)(value / 10 * 16 + value % 10);
    }
    if (one_in(d, 12))
        memset(b, 0xFF, below(d, 6));
    if (one_in(d, 12))
        b[0] = 0x3A, b[1] = (uint8_t)between(d, 0xE5, 0xE9);
    compare_time(b);
    compare_duration(b + 2);
    compare_offset(one_in(d, 2) ? 0 : b[4], b[2], b[3]);
    compare_date(b[0] * 256u + b[1]);
}

const struct kind kind_times = {"times", 1, prepare_times, all_times, one_time};
