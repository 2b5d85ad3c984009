/*
 * The C interface with the second implementation behind it instead of the library. The harness is tried on it: as it stands no
 * difference may show, and with each of the faults below (FAULT=n in the environment) one must.
 */
#include "record.h"

#include <stdlib.h>
#include <string.h>

static int fault(int n)
{
    static int known, asked;
    if (!known) {
        const char *text = getenv("FAULT");
        asked = text ? atoi(text) : 0;
        known = 1;
    }
    return asked == n;
}

uint32_t lohitunga_crc32(const uint8_t *bytes, size_t size)
{
    /* 1: reads one byte too many */
    volatile uint8_t sink = fault(1) ? bytes[size] : 0;
    (void)sink;
    return second_crc(bytes, size);
}

lohitunga_judge_answer lohitunga_judge(const uint8_t *section, size_t size)
{
    struct second_verdict v = second_judge(section, size);
    lohitunga_judge_answer a = {v.number, v.place};
    /* 2: takes a place for another by one; 3: lets a short second loop pass; 4: 7 before 6 */
    if (fault(2) && v.number == 9)
        a.place++;
    if (fault(3) && v.number == 10)
        a.number = 0, a.place = 0;
    if (fault(4) && v.number == 6 && size > 7 && section[0] != 0x73 && section[6] > section[7])
        a.number = 7;
    return a;
}

lohitunga_search_answer lohitunga_search(const uint8_t *section, size_t size, uint8_t tag)
{
    struct second_found f = second_search(section, size, tag);
    lohitunga_search_answer a = {f.number, f.place, 0, 0, 0, 0};
    if (f.number == 0 && f.kind == SECOND_HIT) {
        a.found = 1;
        a.entry = f.loop;
        a.start = f.at;
        a.size = f.size;
    }
    /* 5: an empty body is no hit */
    if (fault(5) && a.found && a.size == 0)
        memset(&a, 0, sizeof a);
    return a;
}

lohitunga_walk_answer lohitunga_walk(const uint8_t *loop, size_t size, size_t at)
{
    struct second_step s = second_walk(loop, size, at);
    lohitunga_walk_answer a = {s.number, s.place, 0, 0, 0, 0, s.next};
    if (!s.number && s.kind == SECOND_DESCRIPTOR) {
        a.descriptor = 1;
        a.tag = s.tag;
        a.start = s.at + 2;
        a.size = s.size - 2;
    }
    /* 6: a place beyond the loop is its end */
    if (fault(6) && at > size)
        a.number = 0, a.place = 0;
    return a;
}

static lohitunga_part to_c(struct second_part p) { return (lohitunga_part){p.start, p.size}; }

static struct second_part from_c(lohitunga_part p) { return (struct second_part){p.start, p.size}; }

lohitunga_open_answer lohitunga_open(const uint8_t *section, size_t size)
{
    struct second_opened o = second_open(section, size);
    lohitunga_open_answer a;
    memset(&a, 0, sizeof a);
    a.number = o.number;
    a.place = o.place;
    a.head.table_id = o.table_id;
    a.head.network_id = o.network_id;
    a.head.bouquet_id = o.bouquet_id;
    a.head.service_id = o.service_id;
    a.head.transport_stream_id = o.transport_stream_id;
    a.head.original_network_id = o.original_network_id;
    a.head.version_number = o.version;
    a.head.current_next_indicator = o.current;
    a.head.section_number = o.section;
    a.head.last_section_number = o.last;
    a.utc_time = to_c(o.utc_time);
    a.top = to_c(o.top);
    a.entries = to_c(o.entries);
    /* 23: of a section that is refused the head is told */
    if (fault(23) && o.number >= 6)
        a.head.table_id = section[0];
    return a;
}

lohitunga_entry_step lohitunga_next_entry(const uint8_t *section, size_t size, lohitunga_part rest)
{
    struct second_entry e = second_entry(section, size, from_c(rest));
    lohitunga_entry_step a = {e.found, e.service_id, e.event_id, e.transport_stream_id, e.original_network_id, to_c(e.fixed), to_c(e.start_time),
                              to_c(e.duration), to_c(e.descriptors), to_c(e.rest)};
    /* 24: the last entry is not found */
    if (fault(24) && e.found && e.rest.size == 0) {
        memset(&a, 0, sizeof a);
        a.rest = rest;
    }
    return a;
}

lohitunga_descriptor_step lohitunga_next_descriptor(const uint8_t *section, size_t size, lohitunga_part rest)
{
    struct second_descriptor d = second_descriptor(section, size, from_c(rest));
    lohitunga_descriptor_step a = {d.found, d.tag, to_c(d.whole), to_c(d.body), to_c(d.rest)};
    /* 25: the length counts itself */
    if (fault(25) && d.found && d.body.size > 0)
        a.body.size--;
    return a;
}

lohitunga_section_step lohitunga_next_section(const uint8_t *out, size_t size, lohitunga_part rest)
{
    struct second_cut c = second_cut(out, size, from_c(rest));
    lohitunga_section_step a = {c.found, to_c(c.section), to_c(c.rest)};
    /* 26: a part that reaches past the room hands out a section */
    if (fault(26) && !c.found && size > 0)
        a.found = 1;
    return a;
}

lohitunga_record lohitunga_fresh(uint16_t pid)
{
    lohitunga_record r;
    memset(&r, 0, sizeof r);
    r.pid = pid;
    r.last = LOHITUNGA_NO_COUNTER;
    /* 56: a number is kept before any section was rejected */
    if (fault(56))
        r.rejection = 6;
    return r;
}

/* Record and packet as the faults of splices have them; whether the record has the mark or the packet the bit. */
static int mishear(struct second_record *s, uint8_t *k)
{
    int field = (k[3] & 0x20) && k[4] > 0, payload = k[3] & 0x10, high = k[5] & 0x80;
    int next = s->has_counter && k[3] % 16 == (s->counter + 1) % 16;
    int spliced = s->mark || (field && high);
    /* 34: the bit is read in an empty field; 41: and where there is no field */
    if (fault(34) && (k[3] & 0x20) && k[4] == 0 && high)
        s->mark = 1;
    if (fault(41) && !(k[3] & 0x20) && high)
        s->mark = 1;
    /* 36: it is not heard in a packet without payload; 37: in one with payload; 38: the bit beside it is read */
    if (fault(36) && field && !payload)
        k[5] &= 0x7F;
    if (fault(37) && field && payload)
        k[5] &= 0x7F;
    if (fault(38) && field)
        k[5] = (uint8_t)(k[5] << 1);
    /* 39: a splice whose counter is the next one keeps what is in hand */
    if (fault(39) && spliced && payload && next) {
        s->mark = 0;
        if (field)
            k[5] &= 0x7F;
    }
    return spliced;
}

/* The answer, the record and what is lent as the faults of judging have them, behind a packet that is taken. */
static void misjudge(const struct second_collected *c, const lohitunga_record *before, lohitunga_collect_answer *a, lohitunga_record *r,
                     uint8_t *hold, uint8_t *out)
{
    unsigned first = 0, last = 0, rejections = 0, straddled = c->wholes > 0 && c->whole[0].at < c->before;
    size_t at = 0, rejected = r->rejected - before->rejected;
    for (size_t i = 0; i < c->wholes; i++) {
        const struct second_whole *w = &c->whole[i];
        const uint8_t *section = c->came + w->from;
        first = first ? first : w->number;
        rejections += w->number != 0;
        /* 57: rejected ones are handed out; 58: what is rejected stands in the out room, behind what is said of it */
        if (fault(57) && w->number) {
            memmove(out + at + w->size, out + at, a->size - at);
            memcpy(out + at, section, w->size);
            a->size += w->size;
            a->sections++;
        }
        if (fault(58) && w->number)
            memcpy(out + a->size, section, w->size);
        at += fault(57) || !w->number ? w->size : 0;
        last = w->number == 6 && section[0] != 0x73 && section[6] > section[7] ? 7 : w->number ? w->number : last;
    }
    /* 59: 7 comes before 6 */
    if (fault(59) && last)
        r->rejection = last;
    /* 60: the end of a rejected section stays in the hold, behind what was in hand; 61: that of an accepted one */
    if (straddled && (c->whole[0].number ? fault(60) : fault(61)))
        for (size_t i = c->before > r->in_hand ? c->before : r->in_hand; i < c->whole[0].size; i++)
            hold[i] = c->came[i];
    /* 62: of two in a packet the first number is kept; 63: a number that is kept stays; 64: so it does where a packet has one
     * rejected section alone; 65: an acceptance clears it */
    if (fault(62) && first)
        r->rejection = first;
    if (fault(63) && before->rejection)
        r->rejection = before->rejection;
    if (fault(64) && rejections == 1)
        r->rejection = before->rejection;
    if (fault(65) && c->sections > 0)
        r->rejection = 0;
    /* 66: rejected bytes are counted as accepted, 67: as broken off; 68: sections are counted and not their bytes */
    if (fault(66))
        r->accepted += (uint32_t)rejected, r->rejected = before->rejected;
    if (fault(67))
        r->broken += (uint32_t)rejected, r->rejected = before->rejected;
    if (fault(68))
        r->rejected = before->rejected + rejections;
    /* 69: all that came whole is in the answer; 70: a section that straddles is judged without its end */
    if (fault(69))
        a->sections = c->wholes;
    if (fault(70) && straddled && rejections == 1 && c->whole[0].number)
        r->rejection = 5;
}

/* 71: a section that begins in the packet with a section_length above 4,093 is rejected with 4 */
static void reject_long(const struct second_collected *c, const uint8_t *packet, lohitunga_record *r)
{
    const uint8_t *payload = packet + 188 - c->payload, *fate = c->fate + c->before;
    for (size_t i = 1; i + 2 < c->payload; i++) {
        if (fate[i] != SECOND_BROKEN || fate[i - 1] == SECOND_BROKEN || payload[i + 1] % 16 < 15 || payload[i + 2] <= 0xFD)
            continue;
        r->broken -= (uint32_t)(c->payload - i);
        r->rejected += (uint32_t)(c->payload - i);
        r->rejection = 4;
    }
}

/* Whether a section in hand, its head among it, is unfinished at the target of this packet with payload and the start flag. */
static int reaches_over(const struct second_record *s, const uint8_t *hold, size_t hold_size, const uint8_t *k)
{
    size_t first = k[3] & 0x20 ? 5u + k[4] : 4;
    int bit = (k[3] & 0x20) && k[4] > 0 && (k[5] & 0x80);
    if (hold_size < 4096 || s->in_hand < 3 || s->mark || bit || !s->has_counter || k[3] % 16 != (s->counter + 1) % 16)
        return 0;
    if (!(k[1] & 0x40) || !(k[3] & 0x10) || first > 186 || k[first] > 186 - first)
        return 0;
    return 3u + (hold[1] % 16u * 256u + hold[2]) > s->in_hand + k[first];
}

/* 75: such a section goes on beyond the target: the pointer becomes a byte of the adaptation field, and the flag is not there */
static void reach_over(uint8_t *k)
{
    k[1] &= 0xBF;
    if (!(k[3] & 0x20)) {
        k[3] |= 0x20;
        k[4] = 0;
        return;
    }
    if (k[4]++ == 0)
        k[5] = 0;
}

/* The answer, the record and the hold as the faults of section starts have them, behind a packet with payload that is taken. */
static void misheal(const struct second_collected *c, const lohitunga_record *before, uint8_t held, int over, const uint8_t *k,
                    lohitunga_collect_answer *a, lohitunga_record *r, uint8_t *hold)
{
    const uint8_t *payload = k + 188 - c->payload;
    int straddled = c->wholes > 0 && c->whole[0].at < c->before && c->whole[0].number == 0;
    /* 81: without the start flag nothing is handed out while a number is kept */
    if (!(k[1] & 0x40)) {
        if (fault(81) && before->rejection)
            a->sections = a->size = 0;
        return;
    }
    /* 76: a section unfinished at the target stays in hand where no other does; 77: the mark stays */
    if (fault(76) && over && r->in_hand == 0) {
        memcpy(hold + c->before, payload + 1, payload[0]);
        r->in_hand = c->before + payload[0];
        r->broken -= (uint32_t)r->in_hand;
    }
    if (fault(77))
        r->mark = before->mark;
    /* 78: what stands beyond the target is handed out only where nothing was in hand */
    if (fault(78) && c->before > 0) {
        a->sections = straddled;
        a->size = straddled ? c->whole[0].size : 0;
    }
    /* 79: a counter that is not the next one is not kept; 80: of what was in hand the first byte stays there */
    if (fault(79) && before->last != LOHITUNGA_NO_COUNTER && r->last != (before->last + 1) % 16)
        r->last = before->last;
    if (fault(80) && c->before > 0 && r->in_hand > 0)
        hold[0] = held;
}

lohitunga_collect_answer lohitunga_collect(lohitunga_record *r, uint8_t *hold, size_t hold_size, uint8_t *out, size_t out_size,
                                           const uint8_t *packet, size_t packet_size)
{
    static __thread struct second_collected c;
    struct second_record s = record_in(r);
    lohitunga_record before = *r;
    int spliced = 0, over = 0;
    uint8_t heard[188], held = hold_size > 0 ? hold[0] : 0;
    if (packet_size == sizeof heard) {
        memcpy(heard, packet, sizeof heard);
        spliced = mishear(&s, heard);
        over = reaches_over(&s, hold, hold_size, heard);
        if (fault(75) && over)
            reach_over(heard);
        packet = heard;
    }
    /* 72: 11 stands; 27: of the number that is kept the low byte is looked at */
    if (fault(72) && s.rejection == 11)
        s.rejection = 10;
    if (fault(27))
        s.rejection &= 255;
    second_collect(&c, &s, hold, hold_size, out, out_size, packet, packet_size);
    lohitunga_collect_answer a = {c.number, c.number == 0 && c.kind == SECOND_REPEATED, c.sections, c.bytes};
    if (fault(72) && before.rejection == 11 && s.rejection == 10)
        s.rejection = 11;
    if (fault(27) && s.rejection == (before.rejection & 255))
        s.rejection = before.rejection;
    /* 35: the mark is kept after its use; 40: that of 2 or more is written anew by a refusal */
    if (fault(35) && c.payload > 0 && spliced)
        s.mark = 1;
    if (fault(40) && c.number && r->mark > 1)
        r->mark = 1;
    /* 73: a packet that is refused clears the number that is kept; 74: one that is repeated */
    if ((fault(73) && c.number) || (fault(74) && a.repeated))
        r->rejection = s.rejection = 0;
    if (c.number)
        return a;
    uint32_t filler = r->filler;
    record_out(r, &s);
    misjudge(&c, &before, &a, r, hold, out);
    if (fault(71))
        reject_long(&c, packet, r);
    if (c.payload > 0)
        misheal(&c, &before, held, over, packet, &a, r, hold);
    /* 7: one byte beyond the accepted ones; 8: the hold as scratch room; 9: a counter that stops at its end; 10: control 10 keeps the counter */
    if (fault(7) && c.bytes > 0 && c.bytes < out_size)
        out[c.bytes] ^= 1;
    if (fault(8) && c.sections > 0 && s.in_hand < hold_size)
        hold[s.in_hand] = out[0];
    if (fault(9) && r->filler < filler)
        r->filler = UINT32_MAX;
    if (fault(10) && c.payload == 0 && !a.repeated)
        r->last = packet[3] % 16;
    return a;
}

/*
 * Packets as the faults of the writer have them: a section begins where fewer than `before` bytes come before it, and `filler`
 * fills.
 */
static size_t mislay(size_t before, uint8_t filler, unsigned pid, size_t counter, const uint8_t *sections, size_t size, const size_t *sizes,
                     size_t count, uint8_t *room, size_t room_size)
{
    size_t left = 0, next = 0, packets = 0;
    for (; size > 0 && room_size >= 188 * (packets + 1); packets++) {
        uint8_t *k = room + 188 * packets;
        int start = next < count && left < before;
        size_t bytes = start ? (size < 183 ? size : 183) : left < 184 ? left : 184, over = bytes;
        memset(k, filler, 188);
        k[0] = 0x47;
        k[1] = (uint8_t)(start * 0x40 | pid / 256);
        k[2] = (uint8_t)pid;
        k[3] = (uint8_t)(0x10 | (counter + packets) % 16);
        if (start)
            k[4] = (uint8_t)left;
        memcpy(k + 4 + start, sections, bytes);
        for (; over > left; left = sizes[next++])
            over -= left;
        left -= over;
        sections += bytes;
        size -= bytes;
    }
    return packets;
}

/* Whether the sections could be sent if one of `most` bytes could. */
static int sendable(size_t most, const uint8_t *sections, size_t size, const size_t *sizes, size_t count)
{
    for (size_t i = 0; i < count; i++) {
        size_t n = sizes[i];
        if (n > size || n < 3 || n > most || n != 3u + (sections[1] % 16 * 256 + sections[2]) || sections[0] == 0xFF)
            return 0;
        sections += n;
        size -= n;
    }
    return size == 0;
}

lohitunga_packets_answer lohitunga_packets(uint16_t pid, uint8_t counter, const uint8_t *sections, size_t size, const size_t *sizes,
                                           size_t count, uint8_t *room, size_t room_size)
{
    struct second_packets s = second_packets(pid, counter, sections, size, sizes, count, room, room_size);
    lohitunga_packets_answer a = {s.number, s.packets};
    size_t end = 188 * s.packets;
    /* 42: the pointer one more; 43: the flag on every packet; 46: the counter modulo 15; 47: the high bits of the PID lost */
    for (size_t at = 0; at < end; at += 188) {
        if (fault(42) && room[at + 1] & 0x40)
            room[at + 4]++;
        if (fault(43))
            room[at + 1] |= 0x40;
        if (fault(46))
            room[at + 3] = (uint8_t)(0x10 | (counter + at / 188) % 15);
        if (fault(47))
            room[at + 1] &= 0x40;
    }
    /* 44: filler where a section could begin with the last byte; 45: the flag where none can begin; 52: filler of 0x00 */
    if (fault(44) && s.number == 0)
        a.packets = mislay(182, 0xFF, pid, counter, sections, size, sizes, count, room, room_size);
    if (fault(45) && s.number == 0)
        a.packets = mislay(184, 0xFF, pid, counter, sections, size, sizes, count, room, room_size);
    if (fault(52) && s.number == 0)
        mislay(183, 0, pid, counter, sections, size, sizes, count, room, room_size);
    /* 48: a section of 4,097 bytes is sent; 49: a room that is one packet short is taken */
    if (fault(48) && s.number == 102 && sendable(4097, sections, size, sizes, count)) {
        a.number = 0;
        a.packets = mislay(183, 0xFF, pid, counter, sections, size, sizes, count, room, room_size);
    }
    if (fault(49) && s.number == 103 && room_size >= 188) {
        a.number = 0;
        a.packets = mislay(183, 0xFF, pid, counter, sections, size, sizes, count, room, room_size);
    }
    /* 50: 102 before 101; 51: 103 before 102 */
    if (fault(50) && s.number == 101 && !sendable(4096, sections, size, sizes, count))
        a.number = 102;
    if (fault(51) && s.number == 102 && size > 0 && room_size < 188)
        a.number = 103;
    /* 53: one byte behind the packets; 54: the first packet begun before 103; 55: one size too many is read */
    if (fault(53) && s.number == 0 && room_size > end)
        room[end] ^= 1;
    if (fault(54) && s.number == 103 && room_size > 0)
        room[0] ^= 1;
    volatile size_t sink = fault(55) ? sizes[count] : 0;
    (void)sink;
    return a;
}

static lohitunga_part part(unsigned number, size_t start, size_t size)
{
    lohitunga_part p = {number ? 0 : start, number ? 0 : size};
    return p;
}

lohitunga_text_answer lohitunga_read_network_name(const uint8_t *b, size_t n)
{
    struct second_text s = second_network_name(b, n);
    lohitunga_text_answer a = {s.number, part(s.number, s.at, s.size)};
    return a;
}

lohitunga_text_answer lohitunga_read_stuffing(const uint8_t *b, size_t n)
{
    struct second_text s = second_stuffing(b, n);
    lohitunga_text_answer a = {s.number, part(s.number, s.at, s.size)};
    return a;
}

lohitunga_service_answer lohitunga_read_service(const uint8_t *b, size_t n)
{
    struct second_service s = second_service(b, n);
    lohitunga_service_answer a = {s.number, {(uint8_t)(s.number ? 0 : s.service_type), part(s.number, s.provider_at, s.provider_size),
                                             part(s.number, s.name_at, s.name_size)}};
    return a;
}

static uint32_t letters(unsigned number, const uint8_t three[3])
{
    return number ? 0 : three[0] * 65536u + three[1] * 256u + three[2];
}

lohitunga_short_event_answer lohitunga_read_short_event(const uint8_t *b, size_t n)
{
    struct second_event s = second_short_event(b, n);
    lohitunga_short_event_answer a = {s.number, {letters(s.number, s.language), part(s.number, s.name_at, s.name_size),
                                                 part(s.number, s.text_at, s.text_size)}};
    return a;
}

static lohitunga_count_answer count(const uint8_t *b, size_t n, uint8_t tag, size_t item)
{
    struct second_count s = second_count(b, n, tag, item);
    lohitunga_count_answer a = {s.number, s.count};
    return a;
}

lohitunga_count_answer lohitunga_service_list_count(const uint8_t *b, size_t n) { return count(b, n, 0x41, 3); }
lohitunga_count_answer lohitunga_content_count(const uint8_t *b, size_t n) { return count(b, n, 0x54, 2); }
lohitunga_count_answer lohitunga_parental_rating_count(const uint8_t *b, size_t n) { return count(b, n, 0x55, 4); }
lohitunga_count_answer lohitunga_local_time_offset_count(const uint8_t *b, size_t n) { return count(b, n, 0x58, 13); }

lohitunga_service_list_answer lohitunga_read_service_list(const uint8_t *b, size_t n, size_t index)
{
    struct second_listed s = second_service_list(b, n, index);
    lohitunga_service_list_answer a = {s.number, {(uint16_t)s.service_id, (uint8_t)s.service_type}};
    /* 11: 66 before 62 */
    if (fault(11) && s.number == 62 && n > 2 && index >= (n - 2) / 3)
        a.number = 66;
    return a;
}

lohitunga_content_answer lohitunga_read_content(const uint8_t *b, size_t n, size_t index)
{
    struct second_content s = second_content(b, n, index);
    lohitunga_content_answer a = {s.number, {(uint8_t)s.level_1, (uint8_t)s.level_2, (uint8_t)s.user_byte}};
    return a;
}

lohitunga_parental_rating_answer lohitunga_read_parental_rating(const uint8_t *b, size_t n, size_t index)
{
    struct second_rating s = second_parental_rating(b, n, index);
    lohitunga_parental_rating_answer a = {s.number, {letters(s.number, s.country), (uint8_t)s.rating}};
    return a;
}

/* What 63 to 65 tell. */
static struct second_why refused(struct second_why why)
{
    /* 29: the digit one on; 33: 64 and 65 without a place */
    if (fault(29) && why.number == 63)
        why.digit++;
    if (fault(33) && why.number != 63)
        why.place = 0;
    return why;
}

static lohitunga_moment moment(unsigned number, const struct second_time *t)
{
    lohitunga_moment m = {0, 0, 0, 0, 0};
    if (number)
        return m;
    m.undefined = (uint8_t)t->undefined;
    m.mjd = (uint16_t)t->mjd;
    m.hour = (uint8_t)t->hour;
    m.minute = (uint8_t)t->minute;
    m.second = (uint8_t)t->second;
    return m;
}

lohitunga_local_time_offset_answer lohitunga_read_local_time_offset(const uint8_t *b, size_t n, size_t index)
{
    struct second_local s = second_local_time_offset(b, n, index);
    struct second_why why = refused(s.why);
    lohitunga_local_time_offset_answer a = {.number = why.number, .place = why.place, .digit = why.digit};
    /* 28: the place in the item */
    if (fault(28))
        a.place %= 13;
    if (why.number)
        return a;
    a.item.country_code = letters(0, s.country);
    a.item.country_region_id = (uint8_t)s.region;
    a.item.local_time_offset = (int16_t)s.offset;
    a.item.time_of_change = moment(0, &s.change);
    /* 12: the polarity signs the first offset alone */
    a.item.next_time_offset = (int16_t)(fault(12) && s.next < 0 ? -s.next : s.next);
    return a;
}

uint64_t lohitunga_satellite_hertz(lohitunga_satellite_frequency f) { return f.steps * 10000ull; }
uint64_t lohitunga_cable_hertz(lohitunga_cable_frequency f) { return f.steps * 100ull; }
uint64_t lohitunga_terrestrial_hertz(lohitunga_terrestrial_frequency f) { return fault(13) ? f.steps * 10u : f.steps * 10ull; }

lohitunga_satellite_answer lohitunga_read_satellite(const uint8_t *b, size_t n)
{
    struct second_satellite s = second_satellite(b, n);
    struct second_why why = refused(s.why);
    lohitunga_satellite_answer a = {.number = why.number, .place = why.place, .digit = why.digit};
    /* 32: of two bad digits the later one */
    if (fault(32) && why.number == 63 && b[12] / 16 > 9)
        a.place = 7, a.digit = 6;
    if (why.number)
        return a;
    a.satellite.frequency.steps = s.frequency;
    a.satellite.orbital_position = s.orbital_position;
    a.satellite.symbol_rate = s.symbol_rate;
    a.satellite.west_east_flag = (uint8_t)s.west_east_flag;
    a.satellite.polarization = (uint8_t)s.polarization;
    a.satellite.modulation_system = (uint8_t)s.modulation_system;
    a.satellite.roll_off = (uint8_t)s.roll_off;
    a.satellite.modulation_type = (uint8_t)s.modulation_type;
    a.satellite.fec_inner = (uint8_t)s.fec_inner;
    return a;
}

lohitunga_cable_answer lohitunga_read_cable(const uint8_t *b, size_t n)
{
    struct second_cable s = second_cable(b, n);
    struct second_why why = refused(s.why);
    lohitunga_cable_answer a = {.number = why.number, .place = why.place, .digit = why.digit};
    /* 31: the place counted from the tag on */
    if (fault(31) && why.number == 63)
        a.place += 2;
    if (why.number)
        return a;
    a.cable.frequency.steps = s.frequency;
    a.cable.symbol_rate = s.symbol_rate;
    a.cable.fec_outer = (uint8_t)s.fec_outer;
    a.cable.modulation = (uint8_t)s.modulation;
    a.cable.fec_inner = (uint8_t)s.fec_inner;
    return a;
}

lohitunga_terrestrial_answer lohitunga_read_terrestrial(const uint8_t *b, size_t n)
{
    struct second_terrestrial s = second_terrestrial(b, n);
    lohitunga_terrestrial_answer a = {s.number, {{s.frequency}, (uint8_t)s.bandwidth, (uint8_t)s.priority, (uint8_t)s.time_slicing,
                                                 (uint8_t)s.mpe_fec, (uint8_t)s.constellation, (uint8_t)s.hierarchy,
                                                 (uint8_t)s.code_rate_hp, (uint8_t)s.code_rate_lp, (uint8_t)s.guard_interval,
                                                 (uint8_t)s.transmission_mode, (uint8_t)s.other_frequency}};
    return a;
}

lohitunga_time_answer lohitunga_read_time(uint16_t mjd, uint8_t hour, uint8_t minute, uint8_t second)
{
    uint8_t b[5] = {(uint8_t)(mjd / 256), (uint8_t)mjd, hour, minute, second};
    struct second_time s = second_time(b);
    struct second_why why = refused(s.why);
    lohitunga_time_answer a = {why.number, why.place, why.digit, moment(why.number, &s)};
    /* 14: 64 before 63 */
    if (fault(14) && why.number == 63 && hour >= 0x24)
        a.number = 64;
    return a;
}

lohitunga_duration_answer lohitunga_read_duration(uint8_t hour, uint8_t minute, uint8_t second)
{
    uint8_t b[3] = {hour, minute, second};
    struct second_duration s = second_duration(b);
    struct second_why why = refused(s.why);
    lohitunga_duration_answer a = {why.number, why.place, why.digit, {0, 0, 0}};
    if (why.number)
        return a;
    a.duration.hour = (uint8_t)s.hours;
    a.duration.minute = (uint8_t)s.minutes;
    a.duration.second = (uint8_t)s.seconds;
    return a;
}

lohitunga_time_answer lohitunga_time_from(const uint8_t *bytes, size_t size)
{
    uint8_t b[5] = {0};
    memcpy(b, bytes, size < sizeof b ? size : sizeof b);
    return lohitunga_read_time((uint16_t)(b[0] * 256 + b[1]), b[2], b[3], b[4]);
}

lohitunga_duration_answer lohitunga_duration_from(const uint8_t *bytes, size_t size)
{
    uint8_t b[3] = {0};
    memcpy(b, bytes, size < sizeof b ? size : sizeof b);
    return lohitunga_read_duration(b[0], b[1], b[2]);
}

lohitunga_offset_answer lohitunga_read_offset(uint8_t behind, uint8_t hour, uint8_t minute)
{
    uint8_t b[2] = {hour, minute};
    struct second_offset s = second_offset(behind != 0, b);
    struct second_why why = refused(s.why);
    lohitunga_offset_answer a = {why.number, why.place, why.digit, (int16_t)s.minutes};
    /* 30: a minute at its hour's place */
    if (fault(30))
        a.place = 0;
    return a;
}

lohitunga_date_answer lohitunga_read_date(uint16_t mjd)
{
    struct second_date s = second_date(mjd);
    struct second_why why = refused(s.why);
    lohitunga_date_answer a = {why.number, why.place, why.digit, {(uint16_t)s.year, (uint8_t)s.month, (uint8_t)s.day}};
    /* 15: the last day of the range alone */
    if (fault(15) && mjd == 65535)
        a.date.day--;
    return a;
}

lohitunga_roll lohitunga_roll_empty(void)
{
    lohitunga_roll r;
    memset(&r, 0, sizeof r);
    return r;
}

enum { SEGMENTS = 32 };

static int is_schedule(uint8_t table_id) { return table_id >= 0x50 && table_id <= 0x6F; }

static int present_following(uint8_t table_id) { return table_id == 0x4E || table_id == 0x4F; }

/* The last number of this segment, or of the roll. */
static int segment_last(const lohitunga_roll *r, int k) { return 8 * k + 7 < r->last ? 8 * k + 7 : r->last; }

static struct second_roll rolled(const lohitunga_roll *r)
{
    struct second_roll s = {r->begun == 0, r->table_id, r->extension, r->transport_stream_id, r->original_network_id, r->version,
                            r->last, {0}, {0}};
    for (int i = 0; i < 256; i++)
        s.marks[i] = r->came[i] != 0;
    /* 91: an end is known by 1 alone */
    for (int k = 0; k < SEGMENTS; k++)
        s.ends[k] = (fault(91) ? r->known[k] == 1 : r->known[k] != 0) ? r->end[k] : SECOND_UNKNOWN;
    return s;
}

static lohitunga_roll_answer told(struct second_taken t)
{
    lohitunga_roll_answer a = {t.number, t.place, (uint8_t)(t.number == 0 && t.kind == SECOND_COMPLETE),
                               (uint8_t)(t.number ? 0 : t.missing)};
    return a;
}

/* The ends as the faults of asking have them. */
static void misread_ends(const lohitunga_roll *r, struct second_roll *s)
{
    for (int k = 0; k <= r->last / 8; k++) {
        int end = s->ends[k], here = end / 8 == k && end >= 0, whole = segment_last(r, k);
        /* 83: an end above the last is known; 90: one of another segment; 84: numbers that are left out are missing */
        if (fault(83) && here && end > r->last)
            s->ends[k] = whole;
        if (fault(90) && !here && end >= 0 && end <= r->last) {
            if (end < 8 * k)
                memset(s->marks + 8 * k, 1, 8);
            s->ends[k] = whole;
        }
        if (fault(84) && here && end <= r->last)
            s->ends[k] = whole;
        /* 85: an unknown segment is complete; 103: marks count without an end */
        if ((fault(85) || fault(103)) && (!here || end > r->last)) {
            if (fault(85))
                memset(s->marks + 8 * k, 1, 8);
            s->ends[k] = whole;
        }
    }
}

/* 86: segments of sixteen */
static lohitunga_roll_answer ask_sixteen(const lohitunga_roll *r)
{
    lohitunga_roll_answer a = {0, 0, 1, 0};
    for (int n = r->last; n >= 0; n--) {
        int end = r->end[n / 16];
        if (!r->known[n / 16] || end / 16 != n / 16 || end > r->last || (!r->came[n] && n <= end))
            a.complete = 0, a.missing = (uint8_t)n;
    }
    return a;
}

static void take_sixteen(lohitunga_roll *r, const lohitunga_roll *before, const uint8_t *section)
{
    int k = section[6] / 16, afresh = before->begun == 0 || before->version != r->version || before->last != r->last;
    for (int i = 0; i < SEGMENTS; i++) {
        r->known[i] = !afresh && before->known[i];
        r->end[i] = r->known[i] ? before->end[i] : 0;
    }
    for (int i = 0; i < 256; i++)
        r->came[i] = !afresh && before->came[i];
    if (!r->known[k] || r->end[k] != section[12])
        memset(r->came + 16 * k, 0, 16);
    r->known[k] = 1;
    r->end[k] = section[12];
    r->came[section[6]] = 1;
}

lohitunga_roll_answer lohitunga_roll_ask(const lohitunga_roll *roll)
{
    struct second_roll s = rolled(roll);
    int schedule = is_schedule(roll->table_id);
    if (roll->begun && schedule)
        misread_ends(roll, &s);
    if (fault(86) && roll->begun && schedule)
        return ask_sixteen(roll);
    /* 93: present/following are asked as a schedule; 94: schedules of other streams keep the old rule */
    if (fault(93) && present_following(roll->table_id))
        s.table_id = 0x50;
    if (fault(94) && roll->table_id >= 0x60 && schedule)
        s.table_id = 0x4F;
    lohitunga_roll_answer a = told(second_ask(&s));
    /* 92: the section of the last number must have come, left out or not */
    if (fault(92) && schedule && a.complete && !roll->came[roll->last])
        a.complete = 0, a.missing = roll->last;
    return a;
}

/* Whether the end lies below the number, above the last, in another segment: bits 1, 2, 4. */
static int end_wrong(const uint8_t *s) { return (s[12] < s[6]) + 2 * (s[12] > s[7]) + 4 * (s[12] / 8 != s[6] / 8); }

/* What a section that 84 refuses does to the roll if its end is no matter. */
static struct second_taken take_unfit(struct second_roll *s, const uint8_t *section, size_t size)
{
    uint8_t fit[4096];
    memcpy(fit, section, size);
    fit[12] = fit[6];
    uint32_t crc = second_crc(fit, size - 4);
    for (int i = 0; i < 4; i++)
        fit[size - 4 + (size_t)i] = (uint8_t)(crc >> (24 - 8 * i));
    struct second_taken t = second_take(s, fit, size);
    s->ends[section[6] / 8] = section[12];
    return t;
}

/* The roll as the faults of taking have it, behind a section of a schedule that is taken. */
static void misroll(lohitunga_roll *r, const lohitunga_roll *before, const uint8_t *section)
{
    int k = section[6] / 8, afresh = before->begun == 0 || before->version != r->version || before->last != r->last;
    int changed = !afresh && before->known[k] && before->end[k] != section[12];
    /* 82: an end that changes keeps its marks; 95: it empties every segment; 104: its section too; 105: the old one is kept */
    for (int i = 8 * k; i < 8 * k + 8; i++)
        if (fault(82) && changed && before->came[i])
            r->came[i] = 1;
    if (fault(95) && changed) {
        memset(r->came, 0, sizeof r->came);
        r->came[section[6]] = 1;
    }
    if (fault(104) && changed)
        r->came[section[6]] = 0;
    if (fault(105) && changed)
        r->end[k] = before->end[k];
    /* 88: a fresh start keeps ends; 106: so it does of the one end that is told */
    for (int i = 0; i < SEGMENTS; i++)
        if (fault(88) && before->begun && afresh && before->known[i] && i != k) {
            r->known[i] = 1;
            r->end[i] = before->end[i];
        }
    if (fault(106) && before->begun && afresh && before->known[k])
        r->end[k] = before->end[k];
    if (fault(86))
        take_sixteen(r, before, section);
}

lohitunga_roll_answer lohitunga_roll_take(lohitunga_roll *roll, const uint8_t *section, size_t size)
{
    struct second_roll s = rolled(roll);
    lohitunga_roll before = *roll;
    struct second_taken t = second_take(&s, section, size);
    int judged = t.number == 0 || t.number > 10, schedule = judged && is_schedule(section[0]);
    int wrong = judged && (schedule || present_following(section[0])) ? end_wrong(section) : 0;
    /* 87: 84 of present/following; 89: 84 before 81; 108: before 82 */
    if (wrong && (schedule ? (fault(89) && t.number == 81) || (fault(108) && t.number == 82) : fault(87) && t.number == 0))
        t.number = 84;
    /* 84 does not look whether the end lies 96: below the number; 97: above the last; 98: in another segment */
    if (t.number == 84 && schedule && ((fault(96) && wrong == 1) || (fault(97) && wrong == 2) || (fault(98) && wrong == 4)))
        t = take_unfit(&s, section, size);
    if (t.number == 0) {
        /* 16: a new last number does not start it afresh */
        int kept = fault(16) && roll->begun && roll->version == s.version && roll->last != s.last;
        roll->begun = 1;
        roll->table_id = (uint8_t)s.table_id;
        roll->extension = (uint16_t)s.extension;
        roll->transport_stream_id = (uint16_t)s.transport_stream_id;
        roll->original_network_id = (uint16_t)s.original_network_id;
        roll->version = (uint8_t)s.version;
        roll->last = (uint8_t)s.last;
        for (int i = 0; i < 256; i++)
            roll->came[i] = kept ? roll->came[i] != 0 : s.marks[i];
        /* 101: `end` of an unknown segment stays; 102: so does `known` of 2 or more */
        for (int k = 0; k < SEGMENTS; k++) {
            int known = s.ends[k] != SECOND_UNKNOWN;
            roll->end[k] = known ? (uint8_t)s.ends[k] : fault(101) ? roll->end[k] : 0;
            roll->known[k] = fault(102) && known && roll->known[k] ? roll->known[k] : (uint8_t)known;
        }
        /* 100: present/following set the end too */
        if (fault(100) && present_following(section[0])) {
            roll->known[section[6] / 8] = 1;
            roll->end[section[6] / 8] = section[12];
        }
        if (schedule)
            misroll(roll, &before, section);
        return lohitunga_roll_ask(roll);
    }
    lohitunga_roll_answer a = told(t);
    /* 17: 81 before 82; 18: 81 alters the roll; 107: 84 does; 99: 84 has the place of the end */
    if (fault(17) && t.number == 82 && section[5] % 2 == 0)
        a.number = 81;
    if (fault(18) && t.number == 81)
        roll->came[255] ^= 1;
    if (fault(107) && t.number == 84)
        roll->end[section[6] / 8] = section[12];
    if (fault(99) && t.number == 84)
        a.place = 12;
    return a;
}


lohitunga_sheet_answer lohitunga_to_sheet(const uint8_t *section, size_t size, uint8_t *room, size_t room_size)
{
    struct second_written w = second_to_sheet(section, size, room, room_size);
    lohitunga_sheet_answer a = {w.number, w.place, w.written};
    /* 19: one byte beyond the sheet */
    if (fault(19) && w.number == 0)
        room[w.written] ^= 1;
    return a;
}

lohitunga_section_answer lohitunga_to_section(const uint8_t *sheet, size_t size, uint8_t *room, size_t room_size)
{
    struct second_written w = second_to_section(sheet, size, room, room_size);
    lohitunga_section_answer a = {w.number, w.written};
    /* 20: writes while it still judges; 21: 26 before 25; 22: reserved bits as zeros */
    if (fault(20) && w.number == 24)
        room[0] = sheet[0];
    if (fault(21) && w.number == 25 && size > 1100 && sheet[0] < 0x4B)
        a.number = 26;
    if (fault(22) && w.number == 0)
        room[1] &= 0x8F;
    return a;
}

/* Writers of descriptors */

enum { DRAFT = 257, BODY_MOST = 255 };

/* A descriptor before it goes to the room, or the number that has come instead of it; and how many bytes its body has or would have. */
struct draft { struct second_wrote s; uint8_t bytes[DRAFT]; size_t body; };

/* The draft to the room, as the faults of every writer have it. */
static lohitunga_write_answer handed(const struct draft *d, uint8_t tag, uint8_t *room, size_t room_size)
{
    lohitunga_write_answer a = {d->s.number, d->s.size};
    /* 109: a room of 256 is enough; 110: one of 257 is not; 111: 112 before 111; 112: 113 before 112 */
    size_t least = fault(109) ? 256 : fault(110) ? 258 : 257;
    if (room_size < least && !(fault(111) && a.number == 112))
        a.number = 111;
    if (fault(112) && a.number == 112 && d->body > BODY_MOST)
        a.number = 113;
    /* 113: a body of 255 is too long; 114: one of 256 is not */
    if (fault(113) && a.number == 0 && d->body == BODY_MOST)
        a.number = 113;
    if (fault(114) && a.number == 113 && d->body == BODY_MOST + 1)
        a.number = 0, a.size = BODY_MOST + 3;
    /* the room is altered by 117: 112; 118: 113; 119: 111 */
    if ((fault(117) && a.number == 112) || (fault(118) && a.number == 113) || (fault(119) && a.number == 111 && room_size > 0))
        room[0] ^= tag;
    if (a.number) {
        a.size = 0;
        return a;
    }
    memcpy(room, d->bytes, a.size < room_size ? a.size : room_size);
    /* 115: the length counts itself; 120: one byte behind the descriptor, 165: also behind the room; 116: the size is the body's */
    if (fault(115))
        room[1]++;
    if ((fault(120) && a.size < room_size) || (fault(165) && a.size == room_size))
        room[a.size] ^= 1;
    if (fault(116))
        a.size -= 2;
    return a;
}

/* A part as the faults of texts have it. */
static struct second_part mispart(lohitunga_part p, size_t size)
{
    struct second_part q = from_c(p);
    /* 155: what reaches past the bytes is cut there; 156: start and size are added; 157: of no byte any place will do */
    if (fault(155) && p.start <= size && p.size > size - p.start && p.size < SIZE_MAX / 2)
        q.size = size - p.start;
    if (fault(156) && p.start + p.size <= size && p.size > size)
        q = (struct second_part){0, p.start + p.size};
    if (fault(157) && p.size == 0)
        q.start = 0;
    /* 158: the text is looked for at the first byte */
    if (fault(158) && p.start <= size && p.size <= size - p.start)
        q.start = 0;
    return q;
}

lohitunga_write_answer lohitunga_write_network_name(lohitunga_part name, const uint8_t *bytes, size_t size, uint8_t *room, size_t room_size)
{
    struct draft d = {.body = name.size};
    /* 164: one byte too many is read */
    volatile uint8_t sink = fault(164) ? bytes[size] : 0;
    (void)sink;
    d.s = second_write_network_name(mispart(name, size), bytes, size, d.bytes, DRAFT);
    return handed(&d, 0x40, room, room_size);
}

lohitunga_write_answer lohitunga_write_stuffing(lohitunga_part stuffing, const uint8_t *bytes, size_t size, uint8_t *room, size_t room_size)
{
    struct draft d = {.body = stuffing.size};
    d.s = second_write_stuffing(mispart(stuffing, size), bytes, size, d.bytes, DRAFT);
    /* 154: stuffing is 0xFF */
    if (fault(154) && d.s.number == 0)
        memset(d.bytes + 2, 0xFF, d.s.size - 2);
    return handed(&d, 0x42, room, room_size);
}

/* The draft as the faults of two texts have it. */
static void mistext(struct draft *d, lohitunga_part first, lohitunga_part second, size_t at)
{
    /* 160: a text that is too long for its length byte is 112; 162: the length of a text counts itself */
    if (fault(160) && d->s.number == 113 && (first.size > 255 || second.size > 255))
        d->s.number = 112;
    if (fault(162) && d->s.number == 0)
        d->bytes[at]++;
}

lohitunga_write_answer lohitunga_write_service(lohitunga_service f, const uint8_t *bytes, size_t size, uint8_t *room, size_t room_size)
{
    lohitunga_part first = f.service_provider_name, second = f.service_name;
    struct draft d = {.body = 3 + first.size + second.size};
    /* 161: name and provider exchanged */
    if (fault(161))
        first = f.service_name, second = f.service_provider_name;
    d.s = second_write_service(f.service_type, mispart(first, size), mispart(second, size), bytes, size, d.bytes, DRAFT);
    mistext(&d, first, second, 3);
    return handed(&d, 0x48, room, room_size);
}

lohitunga_write_answer lohitunga_write_short_event(lohitunga_short_event f, const uint8_t *bytes, size_t size, uint8_t *room, size_t room_size)
{
    struct draft d = {.body = 5 + f.event_name.size + f.text.size};
    /* 159: of the language_code 24 bits are looked at */
    uint32_t language = fault(159) ? f.language_code % (1u << 24) : f.language_code;
    d.s = second_write_short_event(language, mispart(f.event_name, size), mispart(f.text, size), bytes, size, d.bytes, DRAFT);
    mistext(&d, f.event_name, f.text, 5);
    return handed(&d, 0x4D, room, room_size);
}

typedef struct second_wrote list_writer(const int32_t *numbers, size_t count, uint8_t *room, size_t room_size);

enum { NUMBERS_MOST = 1024, OFFSET = 2, MJD = 3, HOUR = 4, MINUTE = 5, UNDEFINED = 7, NEXT = 8 };

/* A row as the faults of the local time offset have it. */
static void misrow_local(int32_t *row)
{
    /* 135: opposite signs pass, the second as 0; 139: numbers beside `undefined`; 140: so does any `undefined`; 143: a region of 64, which wraps */
    if (fault(135) && (row[OFFSET] < 0 ? row[NEXT] > 0 : row[OFFSET] > 0 && row[NEXT] < 0))
        row[NEXT] = 0;
    if (fault(139) && row[UNDEFINED] == 1)
        memset(row + MJD, 0, (UNDEFINED - MJD) * sizeof *row);
    if (fault(140))
        row[UNDEFINED] = row[UNDEFINED] != 0;
    if (fault(143))
        row[1] &= 63;
    /* 144: minus 1,440 passes; 145: the day before 15,079; 146: MJD 65,536, which wraps; 147: hour 24; 148: minute 60 */
    for (int k = OFFSET; k <= NEXT; k += NEXT - OFFSET)
        row[k] += fault(144) && row[k] == -1440;
    row[MJD] += fault(145) && row[MJD] == 15078;
    if (fault(146))
        row[MJD] &= 0xFFFF;
    row[HOUR] -= fault(147) && row[HOUR] == 24;
    row[MINUTE] -= fault(148) && row[MINUTE] == 60;
}

/* A row as the faults of the other lists have it. */
static void misrow(uint8_t tag, int32_t *row)
{
    /* of what is too large or below zero the low bits are taken, 151: of service_id; 153: of nibbles; 163: of a rating */
    if (fault(151) && tag == 0x41)
        row[0] &= 0xFFFF;
    if (fault(153) && tag == 0x54)
        row[0] &= 15, row[1] &= 15;
    if (fault(163) && tag == 0x55)
        row[1] &= 0xFF;
    if (tag == 0x58)
        misrow_local(row);
}

/* An item that is written, as the faults of lists have it. */
static void misitem(uint8_t tag, const int32_t *row, uint8_t *item)
{
    uint8_t first = item[0];
    /* 141: the country_code backwards; 142: that of a rating; 152: nibbles exchanged */
    if ((fault(141) && tag == 0x58) || (fault(142) && tag == 0x55))
        item[0] = item[2], item[2] = first;
    if (fault(152) && tag == 0x54)
        item[0] = (uint8_t)(first << 4 | first >> 4);
    if (tag != 0x58)
        return;
    /* 132: the reserved bit is 0; the polarity goes by 133: the first offset; 134: the second; 136: it is 1 over two zeros */
    if (fault(132))
        item[3] &= 0xFD;
    if (fault(133))
        item[3] = (uint8_t)((item[3] & 0xFE) | (row[OFFSET] < 0));
    if (fault(134))
        item[3] = (uint8_t)((item[3] & 0xFE) | (row[NEXT] < 0));
    if (fault(136) && row[OFFSET] == 0 && row[NEXT] == 0)
        item[3] |= 1;
    /* 138: undefined is forty zeros */
    if (fault(138) && row[UNDEFINED] == 1)
        memset(item + 6, 0, 5);
}

/* A list of items of `item` bytes, and of `row` numbers. */
static lohitunga_write_answer write_list(uint8_t tag, list_writer *write, size_t item, size_t row, const int32_t *numbers, size_t count, uint8_t *room,
                                         size_t room_size)
{
    static __thread int32_t taken[NUMBERS_MOST];
    struct draft d = {.body = count / row * item};
    size_t most = BODY_MOST / item;
    /* 150: one number too many is read; 149: what is no whole row is left off */
    volatile int32_t sink = fault(150) ? numbers[count] : 0;
    (void)sink;
    count -= fault(149) ? count % row : 0;
    if (count > NUMBERS_MOST)
        abort();
    if (count > 0)
        memcpy(taken, numbers, count * sizeof *numbers);
    for (size_t i = 0; i + row <= count; i += row)
        misrow(tag, taken + i);
    d.s = write(taken, count, d.bytes, DRAFT);
    /* 137: items behind the 255th byte are not looked at */
    if (fault(137) && d.s.number == 112 && count % row == 0 && count / row > most && write(taken, most * row, d.bytes, DRAFT).number == 0)
        d.s.number = 113;
    for (size_t i = 0; d.s.number == 0 && i < count / row; i++)
        misitem(tag, numbers + i * row, d.bytes + 2 + i * item);
    return handed(&d, tag, room, room_size);
}

lohitunga_write_answer lohitunga_write_service_list(const int32_t *numbers, size_t count, uint8_t *room, size_t room_size)
{
    return write_list(0x41, second_write_service_list, 3, LOHITUNGA_SERVICE_LIST_ROW, numbers, count, room, room_size);
}

lohitunga_write_answer lohitunga_write_content(const int32_t *numbers, size_t count, uint8_t *room, size_t room_size)
{
    return write_list(0x54, second_write_content, 2, LOHITUNGA_CONTENT_ROW, numbers, count, room, room_size);
}

lohitunga_write_answer lohitunga_write_parental_rating(const int32_t *numbers, size_t count, uint8_t *room, size_t room_size)
{
    return write_list(0x55, second_write_parental_rating, 4, LOHITUNGA_PARENTAL_RATING_ROW, numbers, count, room, room_size);
}

lohitunga_write_answer lohitunga_write_local_time_offset(const int32_t *numbers, size_t count, uint8_t *room, size_t room_size)
{
    return write_list(0x58, second_write_local_time_offset, 13, LOHITUNGA_LOCAL_TIME_OFFSET_ROW, numbers, count, room, room_size);
}

/* 126: any number but 0 is a flag of 1 */
static unsigned flag(uint8_t number) { return fault(126) ? number != 0 : number; }

/* 129: of a frequency the last eight digits are taken */
static uint32_t digits(uint32_t steps) { return fault(129) ? steps % 100000000 : steps; }

/* 125: FEC_inner stands before the digits of the symbol rate */
static void misplace_rate(struct draft *d)
{
    uint8_t *b = d->bytes + 9, inner = b[3] % 16;
    for (int i = 3; i > 0 && fault(125); i--)
        b[i] = (uint8_t)(b[i - 1] << 4 | b[i] >> 4);
    if (fault(125))
        b[0] = (uint8_t)(inner << 4 | b[0] >> 4);
}

lohitunga_write_answer lohitunga_write_satellite(lohitunga_satellite f, uint8_t *room, size_t room_size)
{
    struct draft d = {.body = 11};
    struct second_satellite s = {.frequency = digits(f.frequency.steps), .orbital_position = f.orbital_position, .symbol_rate = f.symbol_rate,
                                 .west_east_flag = flag(f.west_east_flag), .polarization = f.polarization, .roll_off = f.roll_off,
                                 .modulation_system = f.modulation_system, .modulation_type = f.modulation_type, .fec_inner = f.fec_inner};
    /* 127: a roll_off of DVB-S is let go by; 128: any modulation_system but 0 is DVB-S2 */
    if (fault(127) && f.modulation_system == 0)
        s.roll_off = 0;
    if (fault(128))
        s.modulation_system = f.modulation_system != 0;
    d.s = second_write_satellite(&s, d.bytes, DRAFT);
    /* 124: the two bits are ones under DVB-S; 131: zeros under DVB-S2; 130: the orbital position in binary */
    if (fault(124) && f.modulation_system == 0)
        d.bytes[8] |= 0x18;
    if (fault(131) && f.modulation_system == 1)
        d.bytes[8] &= 0xE7;
    if (fault(130))
        d.bytes[6] = (uint8_t)(f.orbital_position / 256), d.bytes[7] = (uint8_t)f.orbital_position;
    misplace_rate(&d);
    return handed(&d, 0x43, room, room_size);
}

lohitunga_write_answer lohitunga_write_cable(lohitunga_cable f, uint8_t *room, size_t room_size)
{
    struct draft d = {.body = 11};
    struct second_cable c = {.frequency = digits(f.frequency.steps), .fec_outer = f.fec_outer, .modulation = f.modulation, .symbol_rate = f.symbol_rate,
                             .fec_inner = f.fec_inner};
    d.s = second_write_cable(&c, d.bytes, DRAFT);
    /* 121: twelve reserved bits of zero */
    if (fault(121))
        d.bytes[6] = 0, d.bytes[7] &= 0x0F;
    misplace_rate(&d);
    return handed(&d, 0x44, room, room_size);
}

lohitunga_write_answer lohitunga_write_terrestrial(lohitunga_terrestrial f, uint8_t *room, size_t room_size)
{
    struct draft d = {.body = 11};
    struct second_terrestrial t = {.frequency = f.centre_frequency.steps, .bandwidth = f.bandwidth, .priority = flag(f.priority),
                                   .time_slicing = flag(f.time_slicing_indicator), .mpe_fec = flag(f.mpe_fec_indicator),
                                   .constellation = f.constellation, .hierarchy = f.hierarchy_information, .code_rate_hp = f.code_rate_hp_stream,
                                   .code_rate_lp = f.code_rate_lp_stream, .guard_interval = f.guard_interval,
                                   .transmission_mode = f.transmission_mode, .other_frequency = flag(f.other_frequency_flag)};
    d.s = second_write_terrestrial(&t, d.bytes, DRAFT);
    /* 122: two reserved bits of zero; 123: thirty-two */
    if (fault(122))
        d.bytes[6] &= 0xFC;
    if (fault(123))
        memset(d.bytes + 9, 0, 4);
    return handed(&d, 0x5A, room, room_size);
}
