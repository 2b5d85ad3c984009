/* The library's answers in files, for parsers that are programs of their own. */
#include "files.h"
#include "kinds.h"
#include "lohitunga.h"
#include "record.h"
#include "second.h"

#include <inttypes.h>
#include <stdio.h>
#include <stdlib.h>
#include <string.h>

FILE *file;

void put(uint64_t value, int bytes)
{
    for (int i = 0; i < bytes; i++)
        putc((int)(value >> 8 * i & 255), file);
}

int opened(const char *name)
{
    file = fopen(name, "wb");
    if (!file)
        perror(name);
    return file != NULL;
}

int closed(const char *name)
{
    int bad = ferror(file) | fclose(file);
    if (bad)
        perror(name);
    return bad ? 2 : 0;
}

/*
 * The word "sections"; for each MJD from 0 on number 1, year 2, month 1, day 1; then for each section its size 2, the judge's
 * number 1 and place 2, a tag 1, and the search's found 1, entry 2, start 2, size 1; the sheet's size 2, 0 where there is
 * none; the section; the sheet.
 */
int write_sections(uint64_t seed, uint64_t count, const char *name)
{
    static struct section s;
    static uint8_t sheet[5120];
    if (!opened(name))
        return 2;
    fputs("sections", file);
    for (unsigned mjd = 0; mjd < 65536; mjd++) {
        lohitunga_date_answer a = lohitunga_read_date((uint16_t)mjd);
        put(a.number, 1);
        put(a.date.year, 2);
        put(a.date.month, 1);
        put(a.date.day, 1);
    }
    for (uint64_t i = 0; i < count; i++) {
        struct dice d = dice_of(seed, 100, i);
        size_t sheet_size = 0;
        make_section_case(&d, &s);
        uint8_t tag = (uint8_t)below(&d, 256);
        if (s.tag_count > 0 && !one_in(&d, 3))
            tag = s.bytes[s.tags[below(&d, s.tag_count)]];
        lohitunga_judge_answer a = lohitunga_judge(s.bytes, s.size);
        lohitunga_search_answer b = lohitunga_search(s.bytes, s.size, tag);
        sheet_size = lohitunga_to_sheet(s.bytes, s.size, sheet, sizeof sheet).size;
        put(s.size, 2);
        put(a.number, 1);
        put(a.place, 2);
        put(tag, 1);
        put(b.found, 1);
        put(b.entry, 2);
        put(b.start, 2);
        put(b.size, 1);
        put(sheet_size, 2);
        fwrite(s.bytes, 1, s.size, file);
        fwrite(sheet, 1, sheet_size, file);
    }
    return closed(name);
}

/*
 * The word "packets "; then packets that the library does not refuse, each behind what tells whether it heard
 * discontinuity_indicator, where the last counter was the packet's own: `repeated` 1 and the mark afterwards 1.
 */
int write_packets(uint64_t seed, uint64_t count, const char *name)
{
    static struct sender s;
    static uint8_t packet[PACKET_MOST], hold[LOHITUNGA_HOLD], out[LOHITUNGA_OUT];
    if (!opened(name))
        return 2;
    fputs("packets ", file);
    for (uint64_t i = 0, written = 0; written < count; i++) {
        struct dice d = dice_of(seed, 103, i);
        make_sender(&d, &s);
        make_packet(&d, &s, packet);
        lohitunga_record r = lohitunga_fresh((uint16_t)(packet[1] % 32u * 256u + packet[2]));
        r.last = packet[3] % 16;
        lohitunga_collect_answer a = lohitunga_collect(&r, hold, sizeof hold, out, sizeof out, packet, 188);
        if (a.number)
            continue;
        put(a.repeated, 1);
        put(r.mark, 1);
        fwrite(packet, 1, 188, file);
        written++;
    }
    return closed(name);
}

/* A damaged stream: packets of one PID, disturbed on the way, and some with a bit changed. */
enum { CHAIN_MOST = 60 };

static size_t make_damaged(struct dice *d, struct sender *s, uint8_t *to)
{
    static uint8_t packet[PACKET_MOST];
    size_t packets = between(d, 1, CHAIN_MOST);
    make_sender(d, s);
    s->trouble = between(d, 3, 30);
    s->large = one_in(d, 3);
    for (size_t i = 0; i < packets; i++, to += LOHITUNGA_PACKET) {
        make_packet(d, s, packet);
        memcpy(to, packet, LOHITUNGA_PACKET);
        if (one_in(d, 12))
            to[below(d, LOHITUNGA_PACKET)] ^= (uint8_t)(1u << below(d, 8));
    }
    return packets;
}

/* What of a stream came whole, section after section. */
static struct {
    struct { size_t packet, size, at; lohitunga_judge_answer verdict; } sections[CHAIN_MOST * 62];
    uint8_t bytes[CHAIN_MOST * 184];
    size_t count, size;
} came;

/*
 * A packet's sections: those that are accepted out of the library's out room, the others as the second implementation has cut them,
 * with the verdict of the library's judge. Whether the library's answer and record say the same of them.
 */
static int chain_packet(size_t packet, const uint8_t *k, lohitunga_record *r)
{
    static uint8_t hold[LOHITUNGA_HOLD], out[LOHITUNGA_OUT], other_hold[LOHITUNGA_HOLD], other_out[LOHITUNGA_OUT];
    static struct second_collected c;
    struct second_record other = record_in(r);
    lohitunga_record before = *r;
    size_t at = 0, sections = 0, rejected = 0;
    unsigned number = r->rejection;
    memcpy(other_hold, hold, sizeof hold);
    lohitunga_collect_answer a = lohitunga_collect(r, hold, sizeof hold, out, sizeof out, k, LOHITUNGA_PACKET);
    second_collect(&c, &other, other_hold, sizeof other_hold, other_out, sizeof other_out, k, LOHITUNGA_PACKET);
    for (size_t i = 0; i < c.wholes; i++) {
        struct second_whole w = c.whole[i];
        if (!w.number && a.size - at < w.size)
            return 0;
        uint8_t *to = came.bytes + came.size;
        memcpy(to, w.number ? c.came + w.from : out + at, w.size);
        lohitunga_judge_answer verdict = lohitunga_judge(to, w.size);
        if ((verdict.number != 0) != (w.number != 0))
            return 0;
        came.sections[came.count].packet = packet;
        came.sections[came.count].size = w.size;
        came.sections[came.count].at = came.size;
        came.sections[came.count++].verdict = verdict;
        came.size += w.size;
        at += w.number ? 0 : w.size;
        sections += !w.number;
        rejected += w.number ? w.size : 0;
        number = w.number ? verdict.number : number;
    }
    return a.sections == sections && a.size == at && r->accepted - before.accepted == at && r->rejected - before.rejected == rejected &&
           r->rejection == number;
}

/*
 * The word "chains  "; then damaged streams with the sections that came whole in them: PID 2, packets 2, sections 2; the packets;
 * then for each section the packet that ended it 2, its size 2, the judge's number 1 and place 2; the section. Number 0 is a
 * section that the collector handed out.
 */
int write_chains(uint64_t seed, uint64_t count, const char *name)
{
    static struct sender s;
    static uint8_t packets[CHAIN_MOST * LOHITUNGA_PACKET];
    if (!opened(name))
        return 2;
    fputs("chains  ", file);
    for (uint64_t i = 0; i < count; i++) {
        struct dice d = dice_of(seed, 105, i);
        size_t n = make_damaged(&d, &s, packets);
        lohitunga_record r = lohitunga_fresh((uint16_t)s.pid);
        came.count = came.size = 0;
        for (size_t k = 0; k < n; k++) {
            if (!chain_packet(k, packets + k * LOHITUNGA_PACKET, &r)) {
                fprintf(stderr, "%s: stream %" PRIu64 ", packet %zu: the library's sections are not those of the second implementation\n", name, i, k);
                return 1;
            }
        }
        put(s.pid, 2);
        put(n, 2);
        put(came.count, 2);
        fwrite(packets, LOHITUNGA_PACKET, n, file);
        for (size_t k = 0; k < came.count; k++) {
            put(came.sections[k].packet, 2);
            put(came.sections[k].size, 2);
            put(came.sections[k].verdict.number, 1);
            put(came.sections[k].verdict.place, 2);
            fwrite(came.bytes + came.sections[k].at, 1, came.sections[k].size, file);
        }
    }
    return closed(name);
}

/*
 * The word "lists   "; then lists of sections with the library's packets of them: whether the sections stand 1, PID 2, counter 1,
 * sections 2, packets 2; each section's size 2; the sections; the packets.
 */
int write_lists(uint64_t seed, uint64_t count, const char *name)
{
    static struct list l;
    static uint8_t room[LIST_PACKETS * LOHITUNGA_PACKET];
    if (!opened(name))
        return 2;
    fputs("lists   ", file);
    for (uint64_t i = 0; i < count; i++) {
        struct dice d = dice_of(seed, 104, i);
        int real = one_in(&d, 2);
        d.tame = real;
        make_list(&d, &l, real);
        /* below 8,190: what has that PID or the next is known by it to some parsers, and is not looked into */
        uint16_t pid = (uint16_t)between(&d, 16, 8189);
        uint8_t counter = (uint8_t)below(&d, 16);
        lohitunga_packets_answer a = lohitunga_packets(pid, counter, l.bytes, l.size, l.sizes, l.count, room, sizeof room);
        if (a.number) {
            fprintf(stderr, "%s: list %" PRIu64 " is refused with %u\n", name, i, a.number);
            return 1;
        }
        put((uint64_t)real, 1);
        put(pid, 2);
        put(counter, 1);
        put(l.count, 2);
        put(a.packets, 2);
        for (size_t k = 0; k < l.count; k++)
            put(l.sizes[k], 2);
        fwrite(l.bytes, 1, l.size, file);
        fwrite(room, LOHITUNGA_PACKET, a.packets, file);
    }
    return closed(name);
}

/*
 * The word "schedule"; then rounds of schedules with the library's answers: sections 2; of each its version 1, number 1, end 1, last
 * number 1, its 18 bytes, and behind it complete 1, missing 1. The first has a hole: of the numbers 0, 1, 8, 16 and 17 that its
 * segments have, 1 never comes.
 */
int write_schedules(uint64_t seed, uint64_t count, const char *name)
{
    static const struct scheduled hole[] = {{0, 0, 1, 17}, {0, 8, 8, 17}, {0, 16, 17, 17}, {0, 17, 17, 17},
                                            {0, 0, 1, 17}, {0, 8, 8, 17}, {0, 16, 17, 17}, {0, 17, 17, 17}};
    static struct scheduled s[SCHEDULE_MOST];
    if (!opened(name))
        return 2;
    fputs("schedule", file);
    for (uint64_t i = 0; i < count; i++) {
        struct dice d = dice_of(seed, 106, i);
        size_t size = i ? make_schedule(&d, s) : sizeof hole / sizeof *hole;
        lohitunga_roll roll = lohitunga_roll_empty();
        if (i == 0)
            memcpy(s, hole, sizeof hole);
        put(size, 2);
        for (size_t k = 0; k < size; k++) {
            uint8_t bytes[SCHEDULED_SIZE];
            put_scheduled(&s[k], bytes);
            lohitunga_roll_answer a = lohitunga_roll_take(&roll, bytes, sizeof bytes);
            if (a.number) {
                fprintf(stderr, "%s: schedule %" PRIu64 ": a section is refused with %u\n", name, i, a.number);
                return 1;
            }
            put(s[k].version, 1);
            put(s[k].number, 1);
            put(s[k].end, 1);
            put(s[k].last, 1);
            fwrite(bytes, 1, sizeof bytes, file);
            put(a.complete, 1);
            put(a.missing, 1);
        }
    }
    return closed(name);
}

/* Fields, by the names that tshark has for them */

void say(const char *name, long long value) { fprintf(file, "%s %lld\n", name, value); }

void say_bytes(const char *name, const uint8_t *bytes, size_t size)
{
    fprintf(file, "%s ", name);
    for (size_t i = 0; i < size; i++)
        fprintf(file, "%02x", bytes[i]);
    fprintf(file, "\n");
}

void say_letters(const char *name, uint32_t letters)
{
    uint8_t three[3] = {(uint8_t)(letters >> 16), (uint8_t)(letters >> 8), (uint8_t)letters};
    say_bytes(name, three, 3);
}

/* The MJD, for what is known of other parsers' calendars; then the date and the clock. */
void say_moment(const char *name, lohitunga_moment m)
{
    lohitunga_date_answer a = lohitunga_read_date(m.mjd);
    if (m.undefined)
        fprintf(file, "%s undefined\n", name);
    else
        fprintf(file, "%s %u %04u-%02u-%02u %02u:%02u:%02u\n", name, m.mjd, a.date.year, a.date.month, a.date.day, m.hour, m.minute, m.second);
}

static int say_time(const char *name, const uint8_t *b)
{
    lohitunga_time_answer a = lohitunga_read_time((uint16_t)(b[0] * 256 + b[1]), b[2], b[3], b[4]);
    if (a.number == 0)
        say_moment(name, a.time);
    return a.number == 0;
}

static int say_satellite(const uint8_t *b, size_t n)
{
    lohitunga_satellite_answer a = lohitunga_read_satellite(b, n);
    lohitunga_satellite f = a.satellite;
    if (a.number)
        return 0;
    say("mpeg_descr.sat_delivery.freq", f.frequency.steps);
    say("mpeg_descr.sat_delivery.orbital_pos", f.orbital_position);
    say("mpeg_descr.sat_delivery.west_east_flag", f.west_east_flag);
    say("mpeg_descr.sat_delivery.polarization", f.polarization);
    if (f.modulation_system == 1)
        say("mpeg_descr.sat_delivery.roll_off", f.roll_off);
    say("mpeg_descr.sat_delivery.modulation_system", f.modulation_system);
    say("mpeg_descr.sat_delivery.modulation_type", f.modulation_type);
    say("mpeg_descr.sat_delivery.symbol_rate", f.symbol_rate);
    say("mpeg_descr.sat_delivery.fec_inner", f.fec_inner);
    return 1;
}

static int say_cable(const uint8_t *b, size_t n)
{
    lohitunga_cable_answer a = lohitunga_read_cable(b, n);
    lohitunga_cable f = a.cable;
    if (a.number)
        return 0;
    say("mpeg_descr.cable_delivery.freq", f.frequency.steps);
    say("mpeg_descr.cable_delivery.fec_outer", f.fec_outer);
    say("mpeg_descr.cable_delivery.modulation", f.modulation);
    say("mpeg_descr.cable_delivery.sym_rate", f.symbol_rate);
    say("mpeg_descr.cable_delivery.fec_inner", f.fec_inner);
    return 1;
}

static int say_terrestrial(const uint8_t *b, size_t n)
{
    lohitunga_terrestrial_answer a = lohitunga_read_terrestrial(b, n);
    lohitunga_terrestrial f = a.terrestrial;
    if (a.number)
        return 0;
    say("mpeg_descr.terr_delivery.centre_freq", (long long)lohitunga_terrestrial_hertz(f.centre_frequency));
    say("mpeg_descr.terr_delivery.bandwidth", f.bandwidth);
    say("mpeg_descr.terr_delivery.priority", f.priority);
    say("mpeg_descr.terr_delivery.time_slicing_ind", f.time_slicing_indicator);
    say("mpeg_descr.terr_delivery.mpe_fec_ind", f.mpe_fec_indicator);
    say("mpeg_descr.terr_delivery.constellation", f.constellation);
    say("mpeg_descr.terr_delivery.hierarchy_information", f.hierarchy_information);
    say("mpeg_descr.terr_delivery.code_rate_hp_stream", f.code_rate_hp_stream);
    say("mpeg_descr.terr_delivery.code_rate_lp_stream", f.code_rate_lp_stream);
    say("mpeg_descr.terr_delivery.guard_interval", f.guard_interval);
    say("mpeg_descr.terr_delivery.transmission_mode", f.transmission_mode);
    say("mpeg_descr.terr_delivery.other_freq_flag", f.other_frequency_flag);
    return 1;
}

static int say_texts(const uint8_t *b, size_t n)
{
    if (b[0] == 0x40 || b[0] == 0x42) {
        lohitunga_text_answer a = b[0] == 0x40 ? lohitunga_read_network_name(b, n) : lohitunga_read_stuffing(b, n);
        if (a.number)
            return 0;
        if (a.text.size > 0)
            say_bytes(b[0] == 0x40 ? "mpeg_descr.net_name.name" : "mpeg_descr.stuffing", b + a.text.start, a.text.size);
        return 1;
    }
    if (b[0] == 0x48) {
        lohitunga_service_answer a = lohitunga_read_service(b, n);
        lohitunga_service f = a.service;
        if (a.number)
            return 0;
        say("mpeg_descr.svc.type", f.service_type);
        say("mpeg_descr.svc.provider_name_len", (long long)f.service_provider_name.size);
        if (f.service_provider_name.size > 0)
            say_bytes("mpeg_descr.svc.provider_name", b + f.service_provider_name.start, f.service_provider_name.size);
        say("mpeg_descr.svc.svc_name_len", (long long)f.service_name.size);
        if (f.service_name.size > 0)
            say_bytes("mpeg_descr.svc.svc_name", b + f.service_name.start, f.service_name.size);
        return 1;
    }
    lohitunga_short_event_answer a = lohitunga_read_short_event(b, n);
    lohitunga_short_event f = a.short_event;
    if (a.number)
        return 0;
    say_letters("mpeg_descr.short_evt.lang_code", f.language_code);
    say("mpeg_descr.short_evt.name_len", (long long)f.event_name.size);
    if (f.event_name.size > 0)
        say_bytes("mpeg_descr.short_evt.name", b + f.event_name.start, f.event_name.size);
    say("mpeg_descr.short_evt.txt_len", (long long)f.text.size);
    if (f.text.size > 0)
        say_bytes("mpeg_descr.short_evt.txt", b + f.text.start, f.text.size);
    return 1;
}

static int say_service_list(const uint8_t *b, size_t n)
{
    lohitunga_count_answer count = lohitunga_service_list_count(b, n);
    for (size_t i = 0; i < count.count; i++) {
        lohitunga_service_list_answer a = lohitunga_read_service_list(b, n, i);
        say("mpeg_descr.svc_list.id", a.item.service_id);
        say("mpeg_descr.svc_list.type", a.item.service_type);
    }
    return count.number == 0;
}

static int say_content(const uint8_t *b, size_t n)
{
    lohitunga_count_answer count = lohitunga_content_count(b, n);
    for (size_t i = 0; i < count.count; i++) {
        lohitunga_content_answer a = lohitunga_read_content(b, n, i);
        say("mpeg_descr.content.nibble_lvl_1", a.item.content_nibble_level_1);
        say("mpeg_descr.content.nibble_lvl_2", a.item.content_nibble_level_2);
        say("mpeg_descr.content.user", a.item.user_byte);
    }
    return count.number == 0;
}

static int say_rating(const uint8_t *b, size_t n)
{
    lohitunga_count_answer count = lohitunga_parental_rating_count(b, n);
    for (size_t i = 0; i < count.count; i++) {
        lohitunga_parental_rating_answer a = lohitunga_read_parental_rating(b, n, i);
        say_letters("mpeg_descr.parental_rating.country_code", a.item.country_code);
        say("mpeg_descr.parental_rating.rating", a.item.rating);
    }
    return count.number == 0;
}

static int say_local(const uint8_t *b, size_t n)
{
    lohitunga_count_answer count = lohitunga_local_time_offset_count(b, n);
    for (size_t i = 0; i < count.count; i++) {
        lohitunga_local_time_offset_answer a = lohitunga_read_local_time_offset(b, n, i);
        lohitunga_local_time_offset_item f = a.item;
        if (a.number)
            return 0;
        say_letters("mpeg_descr.local_time_offset.country_code", f.country_code);
        say("mpeg_descr.local_time_offset.region_id", f.country_region_id);
        say("mpeg_descr.local_time_offset.offset", f.local_time_offset);
        say_moment("mpeg_descr.local_time_offset.time_of_change", f.time_of_change);
        say("mpeg_descr.local_time_offset.next_time_offset", f.next_time_offset);
    }
    return count.number == 0;
}

/* Whether the library reads the descriptor, or it is of a private tag, into whose body nobody looks. */
static int say_descriptor(const uint8_t *b, size_t n)
{
    say("mpeg_descr.tag", b[0]);
    say("mpeg_descr.len", b[1]);
    switch (b[0]) {
    case 0x40:
    case 0x42:
    case 0x48:
    case 0x4D: return say_texts(b, n);
    case 0x41: return say_service_list(b, n);
    case 0x43: return say_satellite(b, n);
    case 0x44: return say_cable(b, n);
    case 0x54: return say_content(b, n);
    case 0x55: return say_rating(b, n);
    case 0x58: return say_local(b, n);
    case 0x5A: return say_terrestrial(b, n);
    default: return b[0] >= 0xE0 && b[0] <= 0xEF;
    }
}

static int say_loop(const uint8_t *loop, size_t size)
{
    int read = 1;
    size_t at = 0;
    for (;;) {
        lohitunga_walk_answer a = lohitunga_walk(loop, size, at);
        if (!a.descriptor)
            return read && a.number == 0;
        read &= say_descriptor(loop + a.start - 2, a.size + 2);
        at = a.next;
    }
}

static unsigned twelve(const uint8_t *at) { return at[0] % 16u * 256u + at[1]; }

/* Times of the section, and its loops from the first to the last. */
static int say_accepted(const uint8_t *s, size_t size)
{
    size_t at, end = size - 4, fixed = 6;
    int read = 1;
    switch (s[0]) {
    case 0x70: return say_time("dvb_tdt.utc_time", s + 3);
    case 0x73: return say_time("dvb_tot.utc_time", s + 3) & say_loop(s + 10, twelve(s + 8));
    case 0x40:
    case 0x41:
    case 0x4A:
        read = say_loop(s + 10, twelve(s + 8));
        at = 12 + twelve(s + 8);
        break;
    case 0x42:
    case 0x46:
        at = 11;
        fixed = 5;
        break;
    default:
        at = 14;
        fixed = 12;
    }
    while (at < end) {
        if (fixed == 12) {
            lohitunga_duration_answer a = lohitunga_read_duration(s[at + 7], s[at + 8], s[at + 9]);
            read &= say_time("dvb_eit.evt.start_time", s + at + 2) & (a.number == 0);
            fprintf(file, "dvb_eit.evt.duration %02u%02u%02u\n", a.duration.hour, a.duration.minute, a.duration.second);
        }
        size_t loop = twelve(s + at + fixed - 2);
        read &= say_loop(s + at + fixed, loop);
        at += fixed + loop;
    }
    return read;
}


/* A number of the sheet, from left to right. */
static const uint8_t *sheet_at;

static void from_sheet(const char *table, const char *name, int bytes)
{
    long long value = 0;
    char whole[64];
    for (int i = 0; i < bytes; i++)
        value = value * 256 + *sheet_at++;
    snprintf(whole, sizeof whole, "%s.%s", table, name);
    say(whole, value);
}

static void pass_descriptors(void)
{
    unsigned count = sheet_at[0] * 256u + sheet_at[1];
    sheet_at += 2;
    while (count-- > 0)
        sheet_at += 2 + sheet_at[1];
}

/* What a sheet says beside its descriptors. */
static void say_sheet(const uint8_t *sheet)
{
    unsigned id = sheet[0];
    int nit = id == 0x40 || id == 0x41, bat = id == 0x4A, sdt = id == 0x42 || id == 0x46;
    const char *table = nit ? "dvb_nit" : bat ? "dvb_bat" : sdt ? "dvb_sdt" : "dvb_eit";
    if (id == 0x70 || id == 0x73)
        return;
    sheet_at = sheet + 1;
    from_sheet(table, nit ? "sid" : bat ? "bouquet_id" : sdt ? "tsid" : "sid", 2);
    from_sheet(table, "version", 1);
    from_sheet(table, "cur_next_ind", 1);
    from_sheet(table, "sect_num", 1);
    from_sheet(table, "last_sect_num", 1);
    if (nit || bat)
        pass_descriptors();
    else if (sdt)
        from_sheet(table, "original_nid", 2);
    else {
        from_sheet(table, "tsid", 2);
        from_sheet(table, "original_nid", 2);
        from_sheet(table, "segment_last_sect_num", 1);
        from_sheet(table, "last_tid", 1);
    }
    unsigned count = sheet_at[0] * 256u + sheet_at[1];
    sheet_at += 2;
    while (count-- > 0) {
        from_sheet(table, nit || bat ? "ts.id" : sdt ? "svc.id" : "evt.id", 2);
        if (nit || bat)
            from_sheet(table, nit ? "ts.original_network_id" : "ts.original_nid", 2);
        if (sdt) {
            from_sheet(table, "svc.eit_schedule_flag", 1);
            from_sheet(table, "svc.eit_present_following_flag", 1);
        }
        if (!nit && !bat && !sdt)
            sheet_at += 8;
        if (!nit && !bat) {
            from_sheet(table, sdt ? "svc.running_status" : "evt.running_status", 1);
            from_sheet(table, sdt ? "svc.free_ca_mode" : "evt.free_ca_mode", 1);
        }
        pass_descriptors();
    }
}


/*
 * For each section a line `section` with its bytes in hexadecimal, a line `number` with the judge's number and place, then
 * for an accepted one a line for each field, and a last line `read`: 1 where the library reads every time and descriptor.
 */
int write_fields(uint64_t seed, uint64_t count, const char *name)
{
    static struct section s;
    if (!opened(name))
        return 2;
    for (uint64_t i = 0; i < count; i++) {
        struct dice d = dice_of(seed, 101, i);
        d.tame = 1;
        if (one_in(&d, 2))
            make_section(&d, &s);
        else
            make_section_case(&d, &s);
        lohitunga_judge_answer a = lohitunga_judge(s.bytes, s.size);
        say_bytes("section", s.bytes, s.size);
        fprintf(file, "number %u %zu\n", a.number, a.place);
        if (a.number)
            continue;
        static uint8_t sheet[5120];
        if (lohitunga_to_sheet(s.bytes, s.size, sheet, sizeof sheet).number == 0)
            say_sheet(sheet);
        say("read", say_accepted(s.bytes, s.size));
    }
    return closed(name);
}

/* Streams for the account program, with their accounts by the second implementation */

static size_t make_stream(struct dice *d, uint8_t *to, size_t most)
{
    static struct sender s;
    static uint8_t packet[PACKET_MOST];
    size_t n = 0, packets = one_in(d, 10) ? below(d, 3) : between(d, 1, 60);
    make_sender(d, &s);
    for (size_t i = 0; i < packets && n + PACKET_MOST < most; i++) {
        size_t size = make_packet(d, &s, packet);
        if (size != 188 && !one_in(d, 10))
            size = 188; /* one of another size shifts all that follow */
        memcpy(to + n, packet, size);
        n += size;
    }
    return one_in(d, 4) && n > 0 ? n - below(d, n < 400 ? (unsigned)n : 400) : n;
}

static void print_account(FILE *to, const uint8_t *stream, size_t size)
{
    static uint8_t hold[4096], out[4280];
    static struct second_collected a;
    uint64_t taken = 0, repeated = 0, refused = 0, sections = 0;
    if (size < 188) {
        fprintf(to, "no packets\n");
        return;
    }
    struct second_record r = second_fresh(stream[1] % 32u * 256u + stream[2]);
    for (size_t at = 0; at < size; at += 188) {
        size_t piece = size - at < 188 ? size - at : 188;
        second_collect(&a, &r, hold, sizeof hold, out, sizeof out, stream + at, piece);
        refused += a.number != 0;
        repeated += a.number == 0 && a.kind == SECOND_REPEATED;
        taken += a.number == 0 && a.kind == SECOND_TAKEN;
        sections += a.sections;
    }
    fprintf(to, "PID %04X\ntaken %" PRIu64 "\nrepeated %" PRIu64 "\nrefused %" PRIu64 "\n", r.pid, taken, repeated, refused);
#define COUNTED(NAME, counter, words) fprintf(to, #counter " %" PRIu32 "\n", r.counters[SECOND_##NAME]);
    SECOND_COUNTED(COUNTED)
    fprintf(to, "in hand %" PRIu64 "\nsections %" PRIu64 "\n", r.in_hand, sections);
}

/* FOLDER/0, FOLDER/1 and so on, and to each its listing, FOLDER/0.txt and so on. */
int write_streams(uint64_t seed, uint64_t count, const char *folder)
{
    static uint8_t stream[1 << 17];
    char name[512];
    for (uint64_t i = 0; i < count; i++) {
        struct dice d = dice_of(seed, 102, i);
        size_t size = make_stream(&d, stream, sizeof stream);
        snprintf(name, sizeof name, "%s/%" PRIu64, folder, i);
        if (!opened(name))
            return 2;
        fwrite(stream, 1, size, file);
        if (closed(name))
            return 2;
        snprintf(name, sizeof name, "%s/%" PRIu64 ".txt", folder, i);
        if (!opened(name))
            return 2;
        print_account(file, stream, size);
        if (closed(name))
            return 2;
    }
    return 0;
}

/* Packets of another writer */

enum { MUXED_MOST = 1 << 14 };

static int differs(const char *what, uint64_t stream, const uint8_t *packet)
{
    printf("muxed: libavformat: stream %" PRIu64 ": %s, at\n   ", stream, what);
    for (int i = 0; i < 188; i++)
        printf(" %02X", packet[i]);
    printf("\nmuxed: FAILED\n");
    return 1;
}

/* The sections that were collected. PAT and PMT are no tables of EN 300 468: they are rejected with 2. */
struct muxed { uint64_t accepted, rejected; };

/*
 * The packets of one PID, each section of which has its own, with a pointer of 0: the section is cut out of them here, and it is
 * accepted or rejected; those that carried it, and those that the library makes of it.
 */
static int collect_again(uint64_t stream, const uint8_t *packets, size_t count, unsigned pid, struct muxed *all)
{
    static uint8_t hold[LOHITUNGA_HOLD], out[LOHITUNGA_OUT], came[64 * LOHITUNGA_PACKET], room[sizeof came], section[sizeof came];
    lohitunga_record r = lohitunga_fresh((uint16_t)pid);
    size_t held = 0, size = 0;
    for (const uint8_t *k = packets; k < packets + count * LOHITUNGA_PACKET; k += LOHITUNGA_PACKET) {
        if (k[1] % 32u * 256u + k[2] != pid)
            continue;
        lohitunga_record before = r;
        lohitunga_collect_answer a = lohitunga_collect(&r, hold, sizeof hold, out, sizeof out, k, LOHITUNGA_PACKET);
        if (a.number || a.repeated || held == 64)
            return differs("the packet is not taken", stream, k);
        memcpy(came + LOHITUNGA_PACKET * held++, k, LOHITUNGA_PACKET);
        size_t start = k[1] / 64 % 2;
        memcpy(section + size, k + 4 + start, 184 - start);
        size += 184 - start;
        int whole = size >= 3 + twelve(section + 1), known = section[0] != 0 && section[0] != 2;
        if (whole)
            size = 3 + twelve(section + 1);
        if (a.sections != (size_t)(whole && known) || a.size != (whole && known ? size : 0) || memcmp(out, section, a.size) != 0)
            return differs("the section is not handed out, or another is", stream, k);
        if (r.rejected - before.rejected != (whole && !known ? size : 0) || (whole && !known && r.rejection != LOHITUNGA_REFUSED_TABLE_ID))
            return differs("PAT or PMT is not rejected with 2, or another table is", stream, k);
        if (!whole)
            continue;
        if (lohitunga_crc32(section, size) != 0)
            return differs("the section's CRC_32 does not hold", stream, k);
        lohitunga_packets_answer b = lohitunga_packets((uint16_t)pid, came[3] % 16, section, size, &size, 1, room, sizeof room);
        if (b.number || b.packets != held || memcmp(room, came, held * LOHITUNGA_PACKET) != 0)
            return differs("the section's packets are not those that carried it", stream, k);
        held = size = 0;
        all->accepted += known;
        all->rejected += !known;
    }
    if (r.broken || r.skipped || r.in_hand)
        return differs("something is broken off, skipped or in hand", stream, packets);
    return 0;
}

/* A file of muxer.c: collected, and every section alone written again. */
int read_muxed(const char *name)
{
    static uint8_t packets[MUXED_MOST * LOHITUNGA_PACKET], number[4];
    static uint64_t last[8192];
    uint64_t streams = 0, all = 0;
    struct muxed sections = {0, 0};
    file = fopen(name, "rb");
    while (file && fread(number, 1, 4, file) == 4) {
        size_t count = number[0] + number[1] * 256u;
        if (number[2] || number[3] || count > MUXED_MOST || fread(packets, LOHITUNGA_PACKET, count, file) != count)
            break;
        streams++;
        for (size_t i = 0; i < count; i++) {
            const uint8_t *k = packets + i * LOHITUNGA_PACKET;
            unsigned pid = k[1] % 32u * 256u + k[2];
            if (last[pid] != streams && collect_again(streams, packets, count, pid, &sections))
                return 1;
            last[pid] = streams;
        }
        all += count;
    }
    if (!file || !feof(file) || sections.accepted == 0 || sections.rejected == 0) {
        fprintf(stderr, "%s: no file of the muxer\n", name);
        return 2;
    }
    fclose(file);
    printf("muxed: libavformat: in %" PRIu64 " packets of %" PRIu64 " streams %" PRIu64 " sections accepted, %" PRIu64 " of PAT and PMT rejected, "
           "each written again: no difference\n", all, streams, sections.accepted, sections.rejected);
    return 0;
}
