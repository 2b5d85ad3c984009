/*
 * Values that the documents print, put to the library: those of EN 300 468 and of the standards beside it, and the worked
 * values of document 01, the starred ones too; and the example of docs/REFUSALS.md. Each line names what is printed where.
 */
#include "lohitunga.h"
#include "second.h"

#include <stdio.h>
#include <stdlib.h>
#include <string.h>

static unsigned compared;

static void is(const char *what, long long library, long long printed)
{
    compared++;
    if (library == printed)
        return;
    printf("values: %s: the library says %lld, and %lld is printed\nvalues: FAILED\n", what, library, printed);
    exit(1);
}

#define BYTES(...) (const uint8_t[]){__VA_ARGS__}, sizeof(const uint8_t[]){__VA_ARGS__}

/* What a reading's answer begins with; the call is made once for each. */
#define TOLD(answer) (answer).number, (long long)(answer).place, (answer).digit

static void tells(const char *what, long long number, long long place, long long digit, long long printed, long long at, long long which)
{
    is(what, number, printed);
    is(what, place, at);
    is(what, digit, which);
}

/* Times and dates */

static void is_date(const char *what, unsigned mjd, unsigned year, unsigned month, unsigned day)
{
    lohitunga_date_answer a = lohitunga_read_date((uint16_t)mjd);
    is(what, a.number, 0);
    is(what, a.date.year, year);
    is(what, a.date.month, month);
    is(what, a.date.day, day);
}

static void times(void)
{
    lohitunga_time_answer t = lohitunga_read_time(0xC079, 0x12, 0x45, 0x00);
    const char *what = "EN 300 468, 5.2.4 to 5.2.6: 93/10/13 12:45:00 is coded as 0xC079124500";
    is(what, t.number, 0);
    is(what, t.time.undefined, 0);
    is(what, t.time.hour * 10000 + t.time.minute * 100 + t.time.second, 124500);
    is_date(what, t.time.mjd, 1993, 10, 13);
    what = "EN 300 468, 5.2.4: 01:45:30 is coded as 0x014530";
    lohitunga_duration_answer d = lohitunga_read_duration(0x01, 0x45, 0x30);
    is(what, d.number, 0);
    is(what, d.duration.hour * 10000 + d.duration.minute * 100 + d.duration.second, 14530);
    what = "EN 300 468, 5.2.4: an undefined start has all bits 1";
    t = lohitunga_read_time(0xFFFF, 0xFF, 0xFF, 0xFF);
    is(what, t.number, 0);
    is(what, t.time.undefined, 1);

    is_date("EN 300 468, annex C: MJD 45218 is 6 September 1982", 45218, 1982, 9, 6);
    is_date("EN 300 468, annex C: the formulas hold from 1 March 1900 on", 15079, 1900, 3, 1);
    is_date("NBR 15603-2: the last date of 16 bits is 22 April 2038", 0xFFFF, 2038, 4, 22);
    /* Days counted with a calendar, about the ends of years and of February. */
    is_date("1900-12-31", 15384, 1900, 12, 31);
    is_date("1904-02-29", 16539, 1904, 2, 29);
    is_date("1999-12-31", 51543, 1999, 12, 31);
    is_date("2000-02-29", 51603, 2000, 2, 29);
    is_date("2000-03-01", 51604, 2000, 3, 1);
    is_date("2036-02-29", 64752, 2036, 2, 29);

    tells("document 01: MJD 0x3AE6: 65", TOLD(lohitunga_read_date(0x3AE6)), 65, 0, 0);
    tells("document 01: MJD 0x3AE6: 65, in a time", TOLD(lohitunga_read_time(0x3AE6, 0, 0, 0)), 65, 0, 0);
    is_date("document 01: 0x3AE7: 1900-03-01", 0x3AE7, 1900, 3, 1);
    t = lohitunga_read_time(0xFFFF, 0, 0, 0);
    is("document 01: 0xFFFF at 000000: 2038-04-22", t.number + t.time.undefined, 0);
    is_date("document 01: 0xFFFF at 000000: 2038-04-22", t.time.mjd, 2038, 4, 22);
    tells("document 01: clock 24 00 00: 64, at the hour", TOLD(lohitunga_read_time(0xC079, 0x24, 0, 0)), 64, 2, 0);
    tells("document 01: clock 12 4A 00: 63, at the minute's second digit", TOLD(lohitunga_read_time(0xC079, 0x12, 0x4A, 0)), 63, 3, 1);
    tells("the same out of five bytes", TOLD(lohitunga_time_from(BYTES(0xC0, 0x79, 0x12, 0x4A, 0x00))), 63, 3, 1);
    tells("a time that is read tells no place", TOLD(lohitunga_read_time(0xC079, 0x12, 0x45, 0)), 0, 0, 0);
    tells("an undefined time tells none", TOLD(lohitunga_read_time(0xFFFF, 0xFF, 0xFF, 0xFF)), 0, 0, 0);
    is("document 01: an offset of 1 with 0000 is zero", lohitunga_read_offset(1, 0, 0).minutes, 0);
    is("document 01: a duration's hours go to 99", lohitunga_read_duration(0x99, 0x59, 0x59).duration.hour, 99);
    is("MJD 15,020 is below 15,079: 65", lohitunga_read_date(15020).number, 65);

    what = "the first fault, left to right: MJD, hour, minute, second";
    tells(what, TOLD(lohitunga_read_time(0xC079, 0x2A, 0x00, 0x00)), 63, 2, 1);
    tells(what, TOLD(lohitunga_read_time(0xC079, 0x24, 0x6A, 0x00)), 64, 2, 0);
    tells(what, TOLD(lohitunga_read_time(0x0000, 0xFF, 0x00, 0x00)), 65, 0, 0);
    tells(what, TOLD(lohitunga_read_time(0xC079, 0x23, 0x59, 0x60)), 64, 4, 0);
    t = lohitunga_read_time(0xC079, 0x23, 0x59, 0x59);
    is("the last second of a day", t.number, 0);
    is("the last second of a day", t.time.hour * 10000 + t.time.minute * 100 + t.time.second, 235959);
    tells("a duration of 99 60 00: 64, at the minute", TOLD(lohitunga_read_duration(0x99, 0x60, 0x00)), 64, 1, 0);
    tells("a duration of FF FF FF: 63, at its first digit", TOLD(lohitunga_read_duration(0xFF, 0xFF, 0xFF)), 63, 0, 0);
    tells("a duration of 01 45 3A: 63, at its last digit", TOLD(lohitunga_duration_from(BYTES(0x01, 0x45, 0x3A))), 63, 2, 1);
    is("an offset of 01 00 ahead", lohitunga_read_offset(0, 0x01, 0x00).minutes, 60);
    is("an offset of 23 59 behind", lohitunga_read_offset(1, 0x23, 0x59).minutes, -1439);
    tells("an offset of 24 00: 64, at the hour", TOLD(lohitunga_read_offset(0, 0x24, 0x00)), 64, 0, 0);
    tells("an offset of 00 60: 64, at the minute", TOLD(lohitunga_read_offset(0, 0x00, 0x60)), 64, 1, 0);
    tells("an offset of 00 0A: 63, at the minute's second digit", TOLD(lohitunga_read_offset(0, 0x00, 0x0A)), 63, 1, 1);
    tells("an offset of 01 6A: 63, since digits come before their number", TOLD(lohitunga_read_offset(1, 0x01, 0x6A)), 63, 1, 1);
}

/* Descriptors */

/* "0100 0111 .." as it is printed. */
static long long bits(const char *text)
{
    long long value = 0;
    for (; *text; text++)
        if (*text != ' ')
            value = value * 2 + (*text == '1');
    return value;
}

/* Bandwidth, priority, time slicing and MPE-FEC; the other fields in order. */
static void is_terrestrial(const char *what, lohitunga_terrestrial_answer a, const char *first, const char *other)
{
    is(what, a.number, 0);
    lohitunga_terrestrial t = a.terrestrial;
    is(what, t.bandwidth * 8 + t.priority * 4 + t.time_slicing_indicator * 2 + t.mpe_fec_indicator, bits(first));
    long long rates = t.constellation * 512 + t.hierarchy_information * 64 + t.code_rate_hp_stream * 8 + t.code_rate_lp_stream;
    is(what, ((rates * 4 + t.guard_interval) * 4 + t.transmission_mode) * 2 + t.other_frequency_flag, bits(other));
}

static void delivery(void)
{
    lohitunga_cable_answer c = lohitunga_read_cable(BYTES(0x44, 11, 0x03, 0x12, 0x00, 0x00, 0xFF, 0xF2, 0x03, 0x02, 0x74, 0x50, 0x0F));
    const char *what = "EN 300 468, 6.2.13.1: cable frequency 0312,0000 MHz; document 01: 3,120,000 steps";
    is(what, c.number, 0);
    is(what, c.cable.frequency.steps, 3120000);
    is(what, (long long)lohitunga_cable_hertz(c.cable.frequency), 312000000);
    what = "EN 300 468, 6.2.13.1: symbol_rate 027,4500 Msymbol/s";
    is(what, c.cable.symbol_rate, 274500);
    is("FEC_inner behind the seventh digit", c.cable.fec_inner, 15);
    is("FEC_outer behind twelve reserved bits", c.cable.fec_outer, 2);
    is("modulation", c.cable.modulation, 3);
    c = lohitunga_read_cable(BYTES(0x44, 11, 0x03, 0x12, 0x00, 0x00, 0x00, 0x02, 0x03, 0x02, 0x74, 0x50, 0x0F));
    is("reserved bits of zeros: the same fields", c.number, 0);
    is("reserved bits of zeros: the same fields", c.cable.fec_outer, 2);
    is("reserved bits of zeros: the same fields", c.cable.symbol_rate, 274500);
    tells("a cable descriptor that is read tells no place", TOLD(c), 0, 0, 0);
    tells("docs/REFUSALS.md: 44 0B 03 12 00 00 FF F2 03 00 6B 75 02: 63 at place 7, digit 3",
          TOLD(lohitunga_read_cable(BYTES(0x44, 0x0B, 0x03, 0x12, 0x00, 0x00, 0xFF, 0xF2, 0x03, 0x00, 0x6B, 0x75, 0x02))), 63, 7, 3);
    tells("a frequency's last digit A: 63",
          TOLD(lohitunga_read_cable(BYTES(0x44, 11, 0x03, 0x12, 0x00, 0x0A, 0xFF, 0xF2, 0x03, 0x02, 0x74, 0x50, 0x0F))), 63, 0, 7);
    tells("a digit A of the symbol_rate: 63",
          TOLD(lohitunga_read_cable(BYTES(0x44, 11, 0x03, 0x12, 0x00, 0x00, 0xFF, 0xF2, 0x03, 0x02, 0x74, 0x5A, 0x0F))), 63, 7, 5);
    tells("a body of ten bytes: 62",
          TOLD(lohitunga_read_cable(BYTES(0x44, 10, 0x03, 0x12, 0x00, 0x00, 0xFF, 0xF2, 0x03, 0x02, 0x74, 0x5A))), 62, 0, 0);
    tells("a satellite descriptor read as a cable one: 61",
          TOLD(lohitunga_read_cable(BYTES(0x43, 11, 0x01, 0x17, 0x57, 0x25, 0x01, 0x92, 0x81, 0x02, 0x74, 0x5A, 0x03))), 61, 0, 0);

    lohitunga_satellite_answer s = lohitunga_read_satellite(BYTES(0x43, 11, 0x01, 0x17, 0x57, 0x25, 0x01, 0x92, 0x81, 0x02, 0x74, 0x50, 0x03));
    what = "EN 300 468, 6.2.13.2: satellite frequency 011,75725 GHz; document 01: 1,175,725 steps";
    is(what, s.number, 0);
    is(what, s.satellite.frequency.steps, 1175725);
    is(what, (long long)lohitunga_satellite_hertz(s.satellite.frequency), 11757250000LL);
    is("EN 300 468, 6.2.13.2: orbital position 019,2 degrees", s.satellite.orbital_position, 192);
    is("EN 300 468, 6.2.13.2: symbol_rate 027,4500 Msymbol/s", s.satellite.symbol_rate, 274500);
    is("EN 300 468, 6.2.13.2: west_east_flag 1 is east", s.satellite.west_east_flag, 1);
    is("DVB-S", s.satellite.polarization * 1000 + s.satellite.modulation_system * 100 + s.satellite.modulation_type * 10 + s.satellite.roll_off, 10);
    is("FEC_inner", s.satellite.fec_inner, 3);
    s = lohitunga_read_satellite(BYTES(0x43, 11, 0x01, 0x17, 0x57, 0x25, 0x01, 0x92, 0x99, 0x02, 0x74, 0x50, 0x03));
    is("DVB-S: the two bits of the roll-off are reserved", s.number, 0);
    is("DVB-S: the two bits of the roll-off are reserved", s.satellite.modulation_system * 10 + s.satellite.roll_off, 0);
    s = lohitunga_read_satellite(BYTES(0x43, 11, 0x01, 0x17, 0x57, 0x25, 0x01, 0x92, 0x75, 0x02, 0x74, 0x50, 0x03));
    what = "DVB-S2, west, polarization 3, roll-off 2";
    is(what, s.number, 0);
    is(what, s.satellite.west_east_flag, 0);
    is(what, s.satellite.polarization * 1000 + s.satellite.modulation_system * 100 + s.satellite.modulation_type * 10 + s.satellite.roll_off, 3112);
    tells("a digit F of the orbital position: 63",
          TOLD(lohitunga_read_satellite(BYTES(0x43, 11, 0x01, 0x17, 0x57, 0x25, 0x0F, 0x92, 0x81, 0x02, 0x74, 0x50, 0x03))), 63, 4, 1);
    tells("a seventh digit A of the symbol_rate: 63",
          TOLD(lohitunga_read_satellite(BYTES(0x43, 11, 0x01, 0x17, 0x57, 0x25, 0x01, 0x92, 0x81, 0x02, 0x74, 0x50, 0xA3))), 63, 7, 6);
    tells("a digit in each field: the first",
          TOLD(lohitunga_read_satellite(BYTES(0x43, 11, 0x01, 0x17, 0x57, 0xB5, 0x0F, 0x92, 0x81, 0x02, 0x74, 0x50, 0xA3))), 63, 0, 6);
    tells("what stands between the fields and behind them is no digit",
          TOLD(lohitunga_read_satellite(BYTES(0x43, 11, 0x01, 0x17, 0x57, 0x25, 0x01, 0x92, 0xFF, 0x02, 0x74, 0x50, 0x0F))), 0, 0, 0);
    tells("a satellite descriptor of one byte: 62", TOLD(lohitunga_read_satellite(BYTES(0x43))), 62, 0, 0);

    what = "EN 300 468, 6.2.13.4: centre_frequency from 10 Hz to 42 949 672 950 Hz";
    lohitunga_terrestrial_answer t = lohitunga_read_terrestrial(BYTES(0x5A, 11, 0, 0, 0, 1, 0, 0, 0, 0, 0, 0, 0));
    is(what, t.number, 0);
    is(what, (long long)lohitunga_terrestrial_hertz(t.terrestrial.centre_frequency), 10);
    t = lohitunga_read_terrestrial(BYTES(0x5A, 11, 0xFF, 0xFF, 0xFF, 0xFF, 0, 0, 0, 0, 0, 0, 0));
    is(what, (long long)lohitunga_terrestrial_hertz(t.terrestrial.centre_frequency), 42949672950LL);
    is_terrestrial("each field apart", lohitunga_read_terrestrial(BYTES(0x5A, 11, 0, 0, 0, 1, 0x57, 0x9D, 0xCD, 0xFF, 0xFF, 0xFF, 0xFF)),
                   "010 1 0 1", "10 011 101 110 01 10 1");
    is_terrestrial("each field apart, other values", lohitunga_read_terrestrial(BYTES(0x5A, 11, 0xFF, 0xFF, 0xFF, 0xFF, 0xA8, 0x62, 0x32, 0, 0, 0, 0)),
                   "101 0 1 0", "01 100 010 001 10 01 0");
}

static void codes(void)
{
    const char *what = "EN 300 468, 6.2.20: \"GBR\" is 0100 0111 0100 0010 0101 0010";
    lohitunga_local_time_offset_answer l =
        lohitunga_read_local_time_offset(BYTES(0x58, 13, 'G', 'B', 'R', 0x02, 0, 0, 0xC0, 0x79, 0x12, 0x45, 0, 0x01, 0), 0);
    is(what, l.number, 0);
    is(what, l.item.country_code, bits("0100 0111 0100 0010 0101 0010"));
    is("an offset of 0100 ahead", l.item.next_time_offset, 60);
    what = "EN 300 468, 6.2.28: \"GBR\", and a rating of 0x04 is at least 7 years old: rating + 3";
    lohitunga_parental_rating_answer r = lohitunga_read_parental_rating(BYTES(0x55, 4, 'G', 'B', 'R', 0x04), 0);
    is(what, r.number, 0);
    is(what, r.item.country_code, bits("0100 0111 0100 0010 0101 0010"));
    is(what, r.item.rating + 3, 7);
    what = "EN 300 468, 6.2.37: \"fre\" is 0110 0110 0111 0010 0110 0101";
    lohitunga_short_event_answer e = lohitunga_read_short_event(BYTES(0x4D, 5, 'f', 'r', 'e', 0, 0));
    is(what, e.number, 0);
    is(what, e.short_event.language_code, bits("0110 0110 0111 0010 0110 0101"));
    what = "NBR 15603-2: \"BRA\" is 0100 0010 0101 0010 0100 0001";
    r = lohitunga_read_parental_rating(BYTES(0x55, 8, 'G', 'B', 'R', 0x04, 'B', 'R', 'A', 0x01), 1);
    is(what, r.item.country_code, bits("0100 0010 0101 0010 0100 0001"));
    what = "NBR 15603-2: \"por\" is 0111 0000 0110 1111 0111 0010";
    e = lohitunga_read_short_event(BYTES(0x4D, 5, 'p', 'o', 'r', 0, 0));
    is(what, e.short_event.language_code, bits("0111 0000 0110 1111 0111 0010"));
    what = "NBR 15603-2: service_ids 0001000000100000 and 0001000000111000";
    is(what, lohitunga_read_service_list(BYTES(0x41, 6, 0x10, 0x20, 1, 0x10, 0x38, 2), 0).item.service_id, bits("0001000000100000"));
    is(what, lohitunga_read_service_list(BYTES(0x41, 6, 0x10, 0x20, 1, 0x10, 0x38, 2), 1).item.service_id, bits("0001000000111000"));
}

/* Texts and lists: the parts, the number of items, and each way not to fit. */

static void is_text(const char *what, const uint8_t *descriptor, lohitunga_part part, const char *text)
{
    is(what, (long long)part.size, (long long)strlen(text));
    is(what, memcmp(descriptor + part.start, text, part.size), 0);
}

static void texts(void)
{
    const uint8_t name[] = {0x40, 3, 'B', 'R', 'A'};
    lohitunga_text_answer n = lohitunga_read_network_name(name, sizeof name);
    is("network name", n.number, 0);
    is_text("network name", name, n.text, "BRA");
    n = lohitunga_read_network_name(BYTES(0x40, 0));
    is("network name of no byte", n.number + n.text.size, 0);
    is("no byte: 61", lohitunga_read_network_name(name, 0).number, 61);
    is("another tag: 61", lohitunga_read_network_name(BYTES(0x41, 3, 'B', 'R', 'A')).number, 61);
    is("no length byte: 62", lohitunga_read_network_name(BYTES(0x40)).number, 62);
    is("a byte behind the body: 62", lohitunga_read_network_name(BYTES(0x40, 2, 'B', 'R', 'A')).number, 62);
    n = lohitunga_read_stuffing(BYTES(0x42, 2, 0xFF, 0x00));
    is("stuffing", n.number, 0);
    is("stuffing", (long long)n.text.size, 2);

    const uint8_t service[] = {0x48, 9, 1, 3, 'G', 'B', 'R', 3, 'p', 'o', 'r'};
    lohitunga_service_answer s = lohitunga_read_service(service, sizeof service);
    is("service", s.number, 0);
    is("service", s.service.service_type, 1);
    is_text("service: provider", service, s.service.service_provider_name, "GBR");
    is_text("service: name", service, s.service.service_name, "por");
    s = lohitunga_read_service(BYTES(0x48, 3, 1, 0, 0));
    is("service without names", s.number + s.service.service_provider_name.size + s.service.service_name.size, 0);
    is("service of two bytes: 62", lohitunga_read_service(BYTES(0x48, 2, 1, 0)).number, 62);

    const uint8_t event[] = {0x4D, 11, 'p', 'o', 'r', 3, 'B', 'R', 'A', 3, 'G', 'B', 'R'};
    lohitunga_short_event_answer e = lohitunga_read_short_event(event, sizeof event);
    is("short event", e.number, 0);
    is_text("short event: name", event, e.short_event.event_name, "BRA");
    is_text("short event: text", event, e.short_event.text, "GBR");
    is("a byte behind the text: 62", lohitunga_read_short_event(BYTES(0x4D, 6, 'f', 'r', 'e', 0, 0, 0)).number, 62);
    is("a text longer than the body: 62", lohitunga_read_short_event(BYTES(0x4D, 5, 'f', 'r', 'e', 0, 1)).number, 62);
}

static void lists(void)
{
    const uint8_t services[] = {0x41, 6, 0x10, 0x20, 1, 0x10, 0x38, 2};
    is("service list: items", (long long)lohitunga_service_list_count(services, sizeof services).count, 2);
    is("service list: types", lohitunga_read_service_list(services, sizeof services, 0).item.service_type, 1);
    is("service list: types", lohitunga_read_service_list(services, sizeof services, 1).item.service_type, 2);
    is("index past the end: 66", lohitunga_read_service_list(services, sizeof services, 2).number, 66);
    is("two bytes are no item: 62", lohitunga_read_service_list(BYTES(0x41, 2, 0x10, 0x20), 0).number, 62);
    is("an empty list has no item 0: 66", lohitunga_read_service_list(BYTES(0x41, 0), 0).number, 66);

    is("content: items", (long long)lohitunga_content_count(BYTES(0x54, 2, 0x51, 0xA0)).count, 1);
    lohitunga_content_answer c = lohitunga_read_content(BYTES(0x54, 2, 0x51, 0xA0), 0);
    is("content", c.number, 0);
    is("content", c.item.content_nibble_level_1 * 100000 + c.item.content_nibble_level_2 * 1000 + c.item.user_byte, 501160);
    is("three bytes are no item: 62", lohitunga_read_content(BYTES(0x54, 3, 0x51, 0xA0, 0), 0).number, 62);

    is("parental rating: items", (long long)lohitunga_parental_rating_count(BYTES(0x55, 8, 'G', 'B', 'R', 4, 'B', 'R', 'A', 1)).count, 2);
    is("parental rating", lohitunga_read_parental_rating(BYTES(0x55, 8, 'G', 'B', 'R', 4, 'B', 'R', 'A', 1), 1).item.rating, 1);
}

static void offsets(void)
{
    const uint8_t one[] = {0x58, 13, 'G', 'B', 'R', 0x02, 0, 0, 0xC0, 0x79, 0x12, 0x45, 0, 0x01, 0};
    is("local time offset: items", (long long)lohitunga_local_time_offset_count(one, sizeof one).count, 1);
    lohitunga_local_time_offset_answer l = lohitunga_read_local_time_offset(one, sizeof one, 0);
    is("local time offset", l.item.country_region_id + l.item.local_time_offset, 0);
    is("local time offset: time of change", l.item.time_of_change.hour * 10000 + l.item.time_of_change.minute * 100 + l.item.time_of_change.second, 124500);
    is_date("local time offset: time of change", l.item.time_of_change.mjd, 1993, 10, 13);
    tells("index past the end: 66", TOLD(lohitunga_read_local_time_offset(one, sizeof one, 1)), 66, 0, 0);
    l = lohitunga_read_local_time_offset(BYTES(0x58, 13, 'G', 'B', 'R', 0xFF, 0, 0, 0xFF, 0xFF, 0xFF, 0xFF, 0xFF, 0x01, 0), 0);
    is("region 63, polarity 1", l.item.country_region_id, 63);
    is("region 63, polarity 1: zero is zero", l.item.local_time_offset, 0);
    is("region 63, polarity 1", l.item.next_time_offset, -60);
    is("region 63: undefined", l.item.time_of_change.undefined, 1);
    const char *what = "the first fault, left to right: offset, time of change, next offset";
    uint8_t wrong[sizeof one];
    memcpy(wrong, one, sizeof one);
    wrong[2 + 12] = 0x0A;
    tells(what, TOLD(lohitunga_read_local_time_offset(wrong, sizeof wrong, 0)), 63, 12, 1);
    wrong[2 + 6] = wrong[2 + 7] = 0;
    tells(what, TOLD(lohitunga_read_local_time_offset(wrong, sizeof wrong, 0)), 65, 6, 0);
    wrong[2 + 5] = 0x60;
    tells(what, TOLD(lohitunga_read_local_time_offset(wrong, sizeof wrong, 0)), 64, 5, 0);

    /* The place is in the body, so that item 1 begins at 13; item 0 is right. */
    uint8_t two[2 + 26] = {0x58, 26};
    memcpy(two + 2, one + 2, 13);
    memcpy(two + 15, one + 2, 13);
    uint8_t *clock = two + 15 + 8, *mjd = two + 15 + 6;
    memcpy(clock, "\x24\x00\x00", 3);
    tells("item 1 changes at 24 00 00: 64", TOLD(lohitunga_read_local_time_offset(two, sizeof two, 1)), 64, 13 + 8, 0);
    memcpy(clock, "\x12\x4A\x00", 3);
    tells("item 1 changes at 12 4A 00: 63", TOLD(lohitunga_read_local_time_offset(two, sizeof two, 1)), 63, 13 + 9, 1);
    memcpy(mjd, "\x3A\xE6", 2);
    tells("item 1 changes on MJD 0x3AE6: 65", TOLD(lohitunga_read_local_time_offset(two, sizeof two, 1)), 65, 13 + 6, 0);
    tells("item 0 is read", TOLD(lohitunga_read_local_time_offset(two, sizeof two, 0)), 0, 0, 0);
}

/* Descriptors written: document 02, request (iv) */

static uint8_t room[LOHITUNGA_DESCRIPTOR_ROOM];

static void is_written(const char *what, lohitunga_write_answer a, const uint8_t *printed, size_t size)
{
    is(what, a.number, 0);
    is(what, (long long)a.size, (long long)size);
    is(what, memcmp(room, printed, size), 0);
}

static void written_systems(void)
{
    const char *what = "EN 300 468, 6.2.13.1: 0312,0000 MHz and 027,4500 Msymbol/s, written";
    lohitunga_cable c = {{3120000}, 274500, 2, 3, 15};
    is_written(what, lohitunga_write_cable(c, room, sizeof room), BYTES(0x44, 11, 0x03, 0x12, 0x00, 0x00, 0xFF, 0xF2, 0x03, 0x02, 0x74, 0x50, 0x0F));
    c = lohitunga_read_cable(BYTES(0x44, 11, 0x03, 0x12, 0x00, 0x00, 0x00, 0x02, 0x03, 0x02, 0x74, 0x50, 0x0F)).cable;
    what = "reserved bits of zeros are read, and written as ones";
    is_written(what, lohitunga_write_cable(c, room, sizeof room), BYTES(0x44, 11, 0x03, 0x12, 0x00, 0x00, 0xFF, 0xF2, 0x03, 0x02, 0x74, 0x50, 0x0F));
    c.frequency.steps = 99999999, c.symbol_rate = 9999999;
    is_written("the most that eight digits and seven hold", lohitunga_write_cable(c, room, sizeof room),
               BYTES(0x44, 11, 0x99, 0x99, 0x99, 0x99, 0xFF, 0xF2, 0x03, 0x99, 0x99, 0x99, 0x9F));
    c.frequency.steps++;
    is("a frequency of nine digits: 112", lohitunga_write_cable(c, room, sizeof room).number, 112);

    what = "EN 300 468, 6.2.13.2: 011,75725 GHz, 019,2 degrees, 027,4500 Msymbol/s, written";
    lohitunga_satellite s = {{1175725}, 192, 274500, 1, 0, 0, 0, 1, 3};
    is_written(what, lohitunga_write_satellite(s, room, sizeof room), BYTES(0x43, 11, 0x01, 0x17, 0x57, 0x25, 0x01, 0x92, 0x81, 0x02, 0x74, 0x50, 0x03));
    s = lohitunga_read_satellite(BYTES(0x43, 11, 0x01, 0x17, 0x57, 0x25, 0x01, 0x92, 0x99, 0x02, 0x74, 0x50, 0x03)).satellite;
    what = "document 02: satellite's two under modulation_system 0: zeros";
    is_written(what, lohitunga_write_satellite(s, room, sizeof room), BYTES(0x43, 11, 0x01, 0x17, 0x57, 0x25, 0x01, 0x92, 0x81, 0x02, 0x74, 0x50, 0x03));
    s.roll_off = 2;
    is("a roll-off of DVB-S: 112", lohitunga_write_satellite(s, room, sizeof room).number, 112);
    s.modulation_system = 1;
    what = "that of DVB-S2 is written";
    is_written(what, lohitunga_write_satellite(s, room, sizeof room), BYTES(0x43, 11, 0x01, 0x17, 0x57, 0x25, 0x01, 0x92, 0x95, 0x02, 0x74, 0x50, 0x03));

    what = "EN 300 468, 6.2.13.4: the maximum of 42 949 672 950 Hz is 0xFFFFFFFF, written";
    lohitunga_terrestrial t = {{UINT32_MAX}, 5, 0, 1, 0, 1, 4, 2, 1, 2, 1, 0};
    is_written(what, lohitunga_write_terrestrial(t, room, sizeof room),
               BYTES(0x5A, 11, 0xFF, 0xFF, 0xFF, 0xFF, 0xAB, 0x62, 0x32, 0xFF, 0xFF, 0xFF, 0xFF));
    t.priority = 2;
    is("a flag of 2: 112", lohitunga_write_terrestrial(t, room, sizeof room).number, 112);
}

static void written_texts(void)
{
    static const uint8_t many[300];
    const char *what = "EN 300 468, 6.2.37: \"fre\" is 0110 0110 0111 0010 0110 0101, written";
    lohitunga_short_event e = {(uint32_t)bits("0110 0110 0111 0010 0110 0101"), {0, 0}, {0, 0}};
    is_written(what, lohitunga_write_short_event(e, NULL, 0, room, sizeof room), BYTES(0x4D, 5, 0x66, 0x72, 0x65, 0, 0));
    e.language_code = 1u << 24;
    is("a language_code of 25 bits: 112", lohitunga_write_short_event(e, NULL, 0, room, sizeof room).number, 112);
    const uint8_t service[] = {0x48, 9, 1, 3, 'G', 'B', 'R', 3, 'p', 'o', 'r'};
    lohitunga_service s = lohitunga_read_service(service, sizeof service).service;
    is_written("a service that was read", lohitunga_write_service(s, service, sizeof service, room, sizeof room), service, sizeof service);
    what = "document 02: the stuffing descriptor keeps its body as given";
    is_written(what, lohitunga_write_stuffing((lohitunga_part){1, 3}, BYTES(1, 0xFF, 0, 0x42, 2), room, sizeof room), BYTES(0x42, 3, 0xFF, 0, 0x42));

    is("document 02: 111 room under 257", lohitunga_write_network_name((lohitunga_part){0, 1}, many, 300, room, 256).number, 111);
    is("a name of 255 bytes", (long long)lohitunga_write_network_name((lohitunga_part){45, 255}, many, 300, room, 257).size, 257);
    is("document 02: 113 body over 255 bytes", lohitunga_write_network_name((lohitunga_part){44, 256}, many, 300, room, 257).number, 113);
    is("a name that ends behind the bytes lent: 112", lohitunga_write_network_name((lohitunga_part){46, 255}, many, 300, room, 257).number, 112);
    is("whatever the sum of its two numbers", lohitunga_write_network_name((lohitunga_part){2, SIZE_MAX}, many, 300, room, 257).number, 112);
}

static void written_lists(void)
{
    static int32_t many[86 * LOHITUNGA_SERVICE_LIST_ROW];
    const char *what = "NBR 15603-2: service_ids 0001000000100000 and 0001000000111000, written";
    const int32_t services[] = {(int32_t)bits("0001000000100000"), 1, (int32_t)bits("0001000000111000"), 2};
    is_written(what, lohitunga_write_service_list(services, 4, room, sizeof room), BYTES(0x41, 6, 0x10, 0x20, 1, 0x10, 0x38, 2));
    is("three numbers are no whole row: 112", lohitunga_write_service_list(services, 3, room, sizeof room).number, 112);
    is_written("no item", lohitunga_write_service_list(NULL, 0, room, sizeof room), BYTES(0x41, 0));
    is("85 items", (long long)lohitunga_write_service_list(many, 85 * 2, room, sizeof room).size, 257);
    is("86 items: 113", lohitunga_write_service_list(many, 86 * 2, room, sizeof room).number, 113);
    many[85 * 2] = 65536;
    is("document 02: 112 before 113", lohitunga_write_service_list(many, 86 * 2, room, sizeof room).number, 112);
    is("document 02: 111 before 112", lohitunga_write_service_list(many, 86 * 2, room, 256).number, 111);

    int32_t row[LOHITUNGA_LOCAL_TIME_OFFSET_ROW];
    lohitunga_content_row(lohitunga_read_content(BYTES(0x54, 2, 0x51, 0xA0), 0).item, row);
    is_written("content", lohitunga_write_content(row, LOHITUNGA_CONTENT_ROW, room, sizeof room), BYTES(0x54, 2, 0x51, 0xA0));
    what = "EN 300 468, 6.2.28: \"GBR\", and a rating of 0x04 is at least 7 years old, written";
    const int32_t rating[] = {(int32_t)bits("0100 0111 0100 0010 0101 0010"), 7 - 3};
    is_written(what, lohitunga_write_parental_rating(rating, 2, room, sizeof room), BYTES(0x55, 4, 0x47, 0x42, 0x52, 0x04));
}

static void written_offsets(void)
{
    const char *what = "EN 300 468, 6.2.20 and 5.2.4: \"GBR\", 0000 and 0100 ahead, a change at 0xC079124500, written";
    const uint8_t one[] = {0x58, 13, 0x47, 0x42, 0x52, 0x02, 0, 0, 0xC0, 0x79, 0x12, 0x45, 0, 0x01, 0};
    int32_t row[] = {(int32_t)bits("0100 0111 0100 0010 0101 0010"), 0, 0, 0xC079, 12, 45, 0, 0, 60}, read[LOHITUNGA_LOCAL_TIME_OFFSET_ROW];
    is_written(what, lohitunga_write_local_time_offset(row, 9, room, sizeof room), one, sizeof one);
    lohitunga_local_time_offset_row(lohitunga_read_local_time_offset(one, sizeof one, 0).item, read);
    is("the same row is read", memcmp(read, row, sizeof row), 0);
    row[8] = -60;
    is_written("0000 and 0100 behind: polarity 1", lohitunga_write_local_time_offset(row, 9, room, sizeof room),
               BYTES(0x58, 13, 'G', 'B', 'R', 0x03, 0, 0, 0xC0, 0x79, 0x12, 0x45, 0, 0x01, 0));
    row[2] = 1;
    is("document 02: two offsets of opposite sign in one entry: 112", lohitunga_write_local_time_offset(row, 9, room, sizeof room).number, 112);
    row[2] = row[8] = -1440;
    is("an offset of a whole day: 112", lohitunga_write_local_time_offset(row, 9, room, sizeof room).number, 112);
    what = "document 02: a polarity 1 over two zero offsets, and a reserved bit of zero; forty ones";
    const uint8_t over[] = {0x58, 13, 'G', 'B', 'R', 0xFD, 0, 0, 0xFF, 0xFF, 0xFF, 0xFF, 0xFF, 0, 0};
    lohitunga_local_time_offset_row(lohitunga_read_local_time_offset(over, sizeof over, 0).item, row);
    is_written(what, lohitunga_write_local_time_offset(row, 9, room, sizeof room),
               BYTES(0x58, 13, 'G', 'B', 'R', 0xFE, 0, 0, 0xFF, 0xFF, 0xFF, 0xFF, 0xFF, 0, 0));
    row[4] = 12;
    is("an hour beside the undefined time: 112", lohitunga_write_local_time_offset(row, 9, room, sizeof room).number, 112);
    row[3] = 15078, row[7] = 0;
    is("MJD 15,078: 112", lohitunga_write_local_time_offset(row, 9, room, sizeof room).number, 112);
}

/* Sections */

/* A section with CRC_32 and section_length put right. */
static size_t closed(uint8_t *section, size_t size)
{
    section[1] = (uint8_t)(section[1] / 16 * 16 + (size + 1) / 256);
    section[2] = (uint8_t)(size + 1);
    uint32_t crc = second_crc(section, size);
    for (int i = 0; i < 4; i++)
        section[size + (size_t)i] = (uint8_t)(crc >> (24 - 8 * i));
    return size + 4;
}

static void judged(const char *what, const uint8_t *section, size_t size, unsigned number, size_t place)
{
    lohitunga_judge_answer a = lohitunga_judge(section, size);
    is(what, a.number, number);
    is(what, (long long)a.place, (long long)place);
}

static void worked_sections(void)
{
    uint8_t tdt[8] = {0x70, 0x70, 0x05, 0xC0, 0x79, 0x12, 0x45, 0x00};
    judged("document 01: empty: 1", tdt, 0, 1, 0);
    judged("document 01: 70 70 05 C0 79 12 45 00: accepted", tdt, 8, 0, 0);
    judged("document 01: its first 7 bytes: 5", tdt, 7, 5, 0);
    tdt[0] = 0x71;
    judged("document 01: first byte 71: 2", tdt, 8, 2, 0);
    tdt[0] = 0x70, tdt[1] = 0xF0;
    judged("document 01: second F0: 3", tdt, 8, 3, 0);
    tdt[1] = 0x70, tdt[2] = 0x04;
    judged("document 01: third 04: 4", tdt, 8, 4, 0);

    /* A NIT whose top loop has four descriptors: of 1,021, and of one byte more. */
    static uint8_t nit[1100] = {0x40, 0xF0, 0, 0, 1, 0xC1, 0, 0, 0xF3, 0xF0};
    for (unsigned more = 0; more < 2; more++) {
        size_t at = 10;
        for (int i = 0; i < 4; i++) {
            unsigned body = i < 3 ? 250 : 250 + more;
            nit[at] = 0x42;
            nit[at + 1] = (uint8_t)body;
            at += 2 + body;
        }
        nit[8] = (uint8_t)(0xF0 + (at - 10) / 256);
        nit[9] = (uint8_t)(at - 10);
        nit[at] = 0xF0;
        nit[at + 1] = 0;
        size_t size = closed(nit, at + 2);
        is("the NIT's section_length", (long long)size - 3, 1021 + more);
        judged(more ? "document 01: NIT length 1,022: 4" : "document 01: NIT length 1,021 may pass", nit, size, more ? 4 : 0, 0);
    }
    uint8_t tot[16] = {0x73, 0x70, 0, 0xC0, 0x79, 0x12, 0x45, 0x00, 0xF0};
    judged("document 01: TOT 10: 4", tot, closed(tot, 9), 4, 0);

    const char *what = "document 01: loop 42 00: one descriptor";
    lohitunga_walk_answer w = lohitunga_walk(BYTES(0x42, 0x00), 0);
    is(what, w.number, 0);
    is(what, w.descriptor, 1);
    is(what, lohitunga_walk(BYTES(0x42, 0x00), w.next).descriptor, 0);
    is(what, lohitunga_walk(BYTES(0x42, 0x00), w.next).number, 0);
    is("document 01: loop 42: 9", lohitunga_walk(BYTES(0x42), 0).number, 9);
}

/* The register as the decoder model's annex has it: the bits enter one by one, seven 0 and a 1 for the byte 0x01. */
static void crc(void)
{
    static const int order[8] = {0, 0, 0, 0, 0, 0, 0, 1};
    uint32_t reg = 0xFFFFFFFFu;
    for (int i = 0; i < 8; i++) {
        uint32_t feedback = (reg >> 31) ^ (uint32_t)order[i];
        reg = (reg << 1) ^ (feedback ? 0x04C11DB7u : 0);
    }
    is("J.94, annex B: the byte 0x01 enters as seven 0 bits, then 1", lohitunga_crc32(BYTES(0x01)), reg);
    is("the check value of this CRC for the digits 1 to 9", lohitunga_crc32((const uint8_t *)"123456789", 9), 0x0376E6E7);
}

/*
 * EN 300 468, 5.2.4: last_table_id of two services, 0x4E 0x4F 0x51 0x62 and 0x4E 0x4F 0x53 0x60; and the original_network_id
 * 1205 of NBR 15603-2. A section that has them is accepted, and its sheet has them in their places.
 */
static void ids(void)
{
    static const uint8_t tables[2][4] = {{0x4E, 0x4F, 0x51, 0x62}, {0x4E, 0x4F, 0x53, 0x60}};
    for (int i = 0; i < 8; i++) {
        uint8_t id = tables[i / 4][i % 4];
        uint8_t eit[32] = {id, 0xF0, 0, 0, 1, 0xC1, 0, 0, 0, 2, 0x04, 0xB5, 0, id};
        size_t size = closed(eit, 14);
        judged("EN 300 468, 5.2.4: a table_id that is its own last_table_id", eit, size, 0, 0);
        uint8_t sheet[5120];
        is("EN 300 468, 5.2.4: last_table_id", lohitunga_to_sheet(eit, size, sheet, sizeof sheet).number, 0);
        is("EN 300 468, 5.2.4: last_table_id", sheet[12], id);
        is("NBR 15603-2: original_network_id 1205", sheet[9] * 256 + sheet[10], 1205);
        /* The roll goes by it too: another original_network_id is another sub-table. */
        lohitunga_roll roll = lohitunga_roll_empty();
        is("an empty roll takes it", lohitunga_roll_take(&roll, eit, size).number, 0);
        is("NBR 15603-2: original_network_id 1205", roll.original_network_id, 1205);
        eit[11] ^= 1;
        is("another original_network_id: 82", lohitunga_roll_take(&roll, eit, closed(eit, 14)).number, 82);
    }
}

/* Schedules: document 02, request (i) */

/* A section without events to a roll, and its answer: number; 1000 where complete, else what is missing. */
static void scheduled(const char *what, lohitunga_roll *roll, unsigned id, unsigned number, unsigned end, unsigned last, unsigned refused, unsigned told)
{
    uint8_t eit[18] = {(uint8_t)id, 0xF0, 0, 0, 1, 0xC1, (uint8_t)number, (uint8_t)last, 0, 2, 0x04, 0xB5, (uint8_t)end, (uint8_t)id};
    size_t size = closed(eit, 14);
    lohitunga_roll_answer a = lohitunga_roll_take(roll, eit, size), asked = lohitunga_roll_ask(roll);
    is(what, a.number, refused);
    is(what, (long long)a.place, 0);
    is(what, a.complete * 1000 + a.missing, refused ? 0 : told);
    is(what, asked.number, 0);
    is(what, asked.complete * 1000 + asked.missing, told);
}

static void worked_schedule(void)
{
    enum { COMPLETE = 1000 };
    const char *what = "document 02: every number from a segment's first to its own segment_last_section_number";
    lohitunga_roll roll = lohitunga_roll_empty();
    scheduled(what, &roll, 0x50, 0, 1, 17, 0, 1);
    scheduled(what, &roll, 0x50, 1, 1, 17, 0, 8);
    scheduled(what, &roll, 0x50, 8, 8, 17, 0, 16);
    scheduled(what, &roll, 0x50, 16, 17, 17, 0, 17);

    lohitunga_roll before = roll;
    what = "document 02: 84: segment_last_section_number below section_number, above last_section_number, in another segment";
    scheduled(what, &roll, 0x50, 17, 16, 17, 84, 17);
    scheduled(what, &roll, 0x50, 17, 18, 17, 84, 17);
    scheduled(what, &roll, 0x50, 1, 8, 17, 84, 17);
    is("a roll that refuses stays", memcmp(&roll, &before, sizeof roll), 0);

    what = "document 02: complete, where a segment ends early";
    scheduled(what, &roll, 0x50, 17, 17, 17, 0, COMPLETE);
    what = "document 02: a segment end that changes within one version empties that segment";
    scheduled(what, &roll, 0x50, 1, 2, 17, 0, 0);
    scheduled(what, &roll, 0x50, 0, 2, 17, 0, 2);
    scheduled(what, &roll, 0x50, 2, 2, 17, 0, COMPLETE);
    scheduled("the end that stood before: empty again", &roll, 0x50, 0, 1, 17, 0, 1);
    scheduled("another last number starts it afresh, no end is known", &roll, 0x50, 16, 16, 16, 0, 0);
    scheduled("another last number starts it afresh, no end is known", &roll, 0x50, 0, 0, 16, 0, 8);
    scheduled("complete without the section of the last number, which its segment leaves out", &roll, 0x50, 0, 0, 5, 0, COMPLETE);

    what = "document 02: one above the last number or outside its segment counts as unknown, its marks as unset";
    roll = before;
    roll.last = 16;
    is(what, lohitunga_roll_ask(&roll).missing, 16);
    roll.last = 17;
    roll.end[0] = 200;
    is(what, lohitunga_roll_ask(&roll).missing, 0);

    what = "document 02: 0x6F is a schedule";
    roll = lohitunga_roll_empty();
    scheduled(what, &roll, 0x6F, 0, 0, 1, 0, COMPLETE);
    for (unsigned id = 0x4E; id < 0x50; id++) {
        what = "document 02: other tables keep the old rule, present/following among them";
        roll = lohitunga_roll_empty();
        scheduled(what, &roll, id, 0, 0, 1, 0, 1);
        scheduled(what, &roll, id, 1, 0, 1, 0, COMPLETE);
    }
}

/* The worked packet */

static void worked_packet(void)
{
    static uint8_t packet[188] = {0x47, 0x40, 0x14, 0x10, 0x00, 0x70, 0x70, 0x05, 0xC0, 0x79, 0x12, 0x45, 0x00};
    static uint8_t hold[LOHITUNGA_HOLD], out[LOHITUNGA_OUT];
    const char *what = "document 01: the account of 47 40 14 10 00 70 70 05 C0 79 12 45 00 and 175 bytes FF";
    memset(packet + 13, 0xFF, 175);
    lohitunga_record r = lohitunga_fresh(0x14);
    lohitunga_collect_answer a = lohitunga_collect(&r, hold, sizeof hold, out, sizeof out, packet, sizeof packet);
    is(what, a.number + a.repeated, 0);
    is(what, (long long)a.sections, 1);
    is(what, (long long)a.size, 8);
    is(what, r.pointer, 1);
    is(what, r.accepted, 8);
    is(what, r.rejected, 0);
    is(what, r.rejection, 0);
    is(what, r.broken, 0);
    is(what, r.filler, 175);
    is(what, r.skipped, 0);
    is(what, (long long)r.in_hand, 0);
    is(what, lohitunga_judge(out, a.size).number, 0);
}

/* The worked sections that are refused, a packet each, and then the one that is accepted: document 02, request (viii). */
static void worked_rejections(void)
{
    static const struct { uint8_t size, bytes[8]; unsigned number; const char *what; } worked[] = {
        {8, {0x71, 0x70, 0x05, 0xC0, 0x79, 0x12, 0x45, 0x00}, 2, "document 01: first byte 71: 2, in a packet"},
        {8, {0x70, 0xF0, 0x05, 0xC0, 0x79, 0x12, 0x45, 0x00}, 3, "document 01: second F0: 3, in a packet"},
        {7, {0x70, 0x70, 0x04, 0xC0, 0x79, 0x12, 0x45}, 4, "document 01: third 04: 4, in a packet"},
        {8, {0x70, 0x70, 0x05, 0xC0, 0x79, 0x12, 0x45, 0x00}, 0, "document 01: 70 70 05 C0 79 12 45 00: accepted, in a packet"}};
    static uint8_t packet[188], hold[LOHITUNGA_HOLD], out[LOHITUNGA_OUT];
    lohitunga_record r = lohitunga_fresh(0x14);
    unsigned rejected = 0, kept = 0;
    for (uint8_t i = 0; i < 4; i++) {
        memset(packet, 0xFF, sizeof packet);
        memcpy(packet, "\x47\x40\x14\x10", 5);
        packet[3] = (uint8_t)(packet[3] + i);
        memcpy(packet + 5, worked[i].bytes, worked[i].size);
        lohitunga_collect_answer a = lohitunga_collect(&r, hold, sizeof hold, out, sizeof out, packet, sizeof packet);
        int accepted = worked[i].number == 0;
        rejected += accepted ? 0 : worked[i].size;
        kept = accepted ? kept : worked[i].number;
        is(worked[i].what, a.number + a.repeated, 0);
        is(worked[i].what, (long long)a.sections, accepted);
        is(worked[i].what, (long long)a.size, accepted ? 8 : 0);
        is(worked[i].what, r.accepted, accepted ? 8 : 0);
        is(worked[i].what, r.rejected, rejected);
        is("document 02: a rejected section's number is kept, the last one only", r.rejection, kept);
    }
    lohitunga_record by_hand = r;
    by_hand.rejection = r.rejection = 11;
    packet[3]++;
    is("document 02: any number but 0 to 10 is refused with 43",
       lohitunga_collect(&r, hold, sizeof hold, out, sizeof out, packet, sizeof packet).number, 43);
    is("a record that is refused stays", memcmp(&r, &by_hand, sizeof r), 0);
    r.rejection = 10;
    is("10 is none of them", lohitunga_collect(&r, hold, sizeof hold, out, sizeof out, packet, sizeof packet).number, 0);
}

int main(void)
{
    times();
    delivery();
    codes();
    texts();
    lists();
    offsets();
    written_systems();
    written_texts();
    written_lists();
    written_offsets();
    worked_sections();
    crc();
    ids();
    worked_schedule();
    worked_packet();
    worked_rejections();
    printf("values: %u comparisons with what the documents print: all as printed\n", compared);
    return 0;
}
