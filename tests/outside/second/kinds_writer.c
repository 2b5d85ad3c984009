/* Lists of sections made into packets: each call compared, and the packets fed back to a collector. */
#include "kinds.h"
#include "lohitunga.h"
#include "second.h"
#include "tally.h"

#include <string.h>

static void prepare_writer(void)
{
    must_meet("packets", "0 101 102 103");
    must_meet("101 for", "pid counter both");
    must_meet("102 for no more than", "past-the-bytes under-3 not-its-head's over-4,096 first-0xFF left-over");
    must_meet("the first bad section", "first between last");
    /* "in that order": where two numbers apply, the first is given. */
    must_meet("101 where there is", "102 103");
    must_meet("102 where there is", "no-room a-byte-short");
    must_meet("103 for", "no-room a-byte-short a-packet-short");
    must_meet("packets written", "room-exact room-larger none none-without-room");
    must_meet("packets written", "several-sections-in-one last-byte-begins 183-left-one-waits 183-left-none-waits");
    must_meet("packets written", "counter-turns without-flag full-to-the-end second-batch");
    must_meet("sections of", "3 183 184 365 366 367 4,096");
    must_meet("bytes", "pointer sections filler");
    must_meet("lists fed back", "all-accepted some-accepted none-accepted");
    must_meet("bytes fed back", "accepted rejected");
}

enum { ROOM_MOST = LIST_PACKETS * 188 + 512 };

static uint8_t room_before[ROOM_MOST], room_second[ROOM_MOST];

static void list_told(const struct list *l)
{
    call_number("sections", (long long)l->count);
    call_piece("sections", l->bytes, l->size);
    call_piece("sizes", l->sizes, l->count * sizeof *l->sizes);
}

/* One call: the packets are then in room_second. */
static struct second_packets compare_packets(const struct list *l, unsigned pid, unsigned counter, size_t room_size)
{
    memcpy(room_second, room_before, room_size);
    struct second_packets s = second_packets(pid, counter, l->bytes, l->size, l->sizes, l->count, room_second, room_size);
    for (enum placing p = 0; p < PLACINGS; p++) {
        call_begins("lohitunga_packets", p);
        call_number("pid", pid);
        call_number("counter", counter);
        call_number("room", (long long)room_size);
        list_told(l);
        uint8_t *room = room_lend(&rooms.packets, room_before, room_size, p, 1);
        const void *sizes = room_lend(&rooms.sizes, l->sizes, l->count * sizeof *l->sizes, p, _Alignof(size_t));
        lohitunga_packets_answer a = lohitunga_packets((uint16_t)pid, (uint8_t)counter, lend(l->bytes, l->size, p), l->size, sizes,
                                                       l->count, room, room_size);
        long long library[] = {a.number, (long long)a.packets};
        long long second[] = {s.number, (long long)s.packets};
        SAME("number packets", library, second);
        same_bytes("the room", room_now(&rooms.packets), room_second, room_size);
        must(room_back(&rooms.packets), "the canaries beside the room stand");
        must(room_back(&rooms.sizes), "the canaries beside the sizes stand");
        back();
    }
    met_number("packets", s.number);
    return s;
}

/* The packets again */

struct collector {
    lohitunga_record record;
    uint8_t hold[LOHITUNGA_HOLD], out[LOHITUNGA_OUT];
};

/* Those sections of a list that the judge accepts, end to end; how many bytes the others are, and the last one's number. */
static struct parted {
    uint8_t bytes[LIST_BYTES];
    size_t size, count, rejected;
    unsigned number;
} parted;

static void part(const struct list *l)
{
    const uint8_t *section = l->bytes;
    parted.size = parted.count = parted.rejected = parted.number = 0;
    for (size_t i = 0; i < l->count; section += l->sizes[i++]) {
        unsigned number = second_judge(section, l->sizes[i]).number;
        if (number) {
            parted.rejected += l->sizes[i];
            parted.number = number;
            continue;
        }
        memcpy(parted.bytes + parted.size, section, l->sizes[i]);
        parted.size += l->sizes[i];
        parted.count++;
    }
    if (l->count > 0)
        met_word("lists fed back", parted.count == l->count ? "all-accepted" : parted.count > 0 ? "some-accepted" : "none-accepted", 1);
    met_word("bytes fed back", "accepted", parted.size);
    met_word("bytes fed back", "rejected", parted.rejected);
}

/*
 * "A fresh collector fed these packets delivers exactly these sections and breaks off nothing." By request (viii) "The packet
 * writer's promise now speaks of sections that the judge accepts": these come out, and the others' bytes are rejected. And of
 * each packet: "The start flag stands only where a section begins, a filler byte only where no section waits, or where the one
 * byte left would be needed by the pointer."
 */
static void feed(struct collector *c, const struct list *l, const uint8_t *packets, size_t count)
{
    size_t sections = 0, bytes = 0;
    lohitunga_record first = c->record;
    part(l);
    for (size_t i = 0; i < count; i++, packets += 188) {
        lohitunga_record before = c->record;
        lohitunga_collect_answer a = lohitunga_collect(&c->record, c->hold, sizeof c->hold, c->out, sizeof c->out, packets, 188);
        must(a.number == 0 && !a.repeated, "the collector takes each packet");
        must(bytes + a.size <= parted.size, "no more comes out than was written and accepted");
        same_bytes("the sections that were written", c->out, parted.bytes + bytes, a.size);
        bytes += a.size;
        sections += a.sections;
        unsigned start = packets[1] / 64 % 2, filler = c->record.filler - before.filler;
        must(packets[3] / 16 == 1, "no packet has an adaptation field");
        must(c->record.pointer - before.pointer == start, "a packet with the start flag has a pointer");
        must(!start || packets[5 + packets[4]] != 0xFF, "a section begins where the pointer leads");
        must(filler == 0 || i + 1 == count || (filler == 1 && !start), "there is no filler where a section could begin");
        met_word("packets written", "without-flag", !start);
        met_word("packets written", "full-to-the-end", i + 1 == count && filler == 0);
    }
    must(sections == parted.count && bytes == parted.size, "all sections that the judge accepts come out");
    must(c->record.accepted - first.accepted == parted.size, "their bytes are counted as accepted");
    must(c->record.rejected - first.rejected == parted.rejected, "the others' bytes are counted as rejected");
    must(c->record.rejection == (parted.number ? parted.number : first.rejection), "the number kept is that of the last of those");
    must(c->record.broken == 0 && c->record.skipped == 0 && c->record.in_hand == 0, "nothing is broken off, skipped or in hand");
    must((l->size + 182) / 183 >= count, "183 bytes of sections, or more, are in each packet but the last");
}

/* What was met */

/* By which part of the sentence the first bad section is one; where it is by one part alone. */
static void bad_met(const struct list *l)
{
    size_t at = 0, i = 0;
    for (; i < l->count; i++) {
        const uint8_t *s = l->bytes + at;
        size_t size = l->sizes[i], left = l->size - at;
        const char *why = NULL;
        unsigned whys = 0;
        if (size > left)
            why = "past-the-bytes", whys++;
        if (size < 3)
            why = "under-3", whys++;
        if (size >= 3 && left >= 3 && size != 3 + (s[1] % 16u * 256u + s[2]))
            why = "not-its-head's", whys++;
        if (size > 4096)
            why = "over-4,096", whys++;
        if (size > 0 && left > 0 && s[0] == 0xFF)
            why = "first-0xFF", whys++;
        if (whys == 1)
            met_word("102 for no more than", why, 1);
        if (whys > 0) {
            if (l->count > 1)
                met_word("the first bad section", i == 0 ? "first" : i + 1 == l->count ? "last" : "between", 1);
            return;
        }
        at += size;
    }
    met_word("102 for no more than", "left-over", 1);
}

static void sizes_met(const struct list *l)
{
    static const struct { size_t size; const char *word; } edges[] = {
        {3, "3"}, {183, "183"}, {184, "184"}, {365, "365"}, {366, "366"}, {367, "367"}, {4096, "4,096"}};
    for (size_t i = 0; i < l->count; i++)
        for (size_t k = 0; k < COUNT(edges); k++)
            if (l->sizes[i] == edges[k].size)
                met_word("sections of", edges[k].word, 1);
}

/* How the sections stand in the packets, by the places at which they begin and end. */
static void layout_met(const struct list *l, const uint8_t *packets, size_t count, unsigned counter)
{
    size_t i = 0, left = 0, pointers = 0;
    for (size_t k = 0; k < count; k++, packets += 188) {
        unsigned start = packets[1] / 64 % 2, begun = 0;
        size_t room = 184 - start;
        if (left == 183)
            met_word("packets written", i < l->count ? "183-left-one-waits" : "183-left-none-waits", 1);
        while (start && left < room && i < l->count) {
            room -= left;
            left = l->sizes[i++];
            begun++;
            met_word("packets written", "last-byte-begins", room == 1);
        }
        left -= left < room ? left : room;
        pointers += start;
        met_word("packets written", "several-sections-in-one", begun > 1);
    }
    met_word("packets written", "counter-turns", count > 0 && counter + count > 16);
    met_word("bytes", "pointer", pointers);
    met_word("bytes", "sections", l->size);
    met_word("bytes", "filler", count * 184 - pointers - l->size);
}

/* Mostly just large enough for so many packets, or one byte short, or one packet; or larger, or no room at all. */
static size_t any_room(struct dice *d, size_t packets)
{
    size_t exact = packets * 188;
    switch (below(d, 12)) {
    case 0: return 0;
    case 1: return exact - (exact > 0);
    case 2: return exact < 188 ? 0 : exact - 188;
    case 3: return below(d, (unsigned)exact + 1);
    case 4: return exact + 1;
    case 5: return exact + below(d, 512);
    default: return exact;
    }
}

static void room_met(const struct second_packets *s, size_t packets, size_t room_size)
{
    size_t exact = packets * 188;
    const char *why = room_size == 0 ? "no-room" : room_size + 1 == exact ? "a-byte-short" : room_size + 188 == exact ? "a-packet-short" : "shorter";
    if (s->number == 103)
        met_word("103 for", why, 1);
    if (s->number != 0)
        return;
    if (packets == 0)
        met_word("packets written", room_size == 0 ? "none-without-room" : "none", 1);
    else
        met_word("packets written", room_size == exact ? "room-exact" : "room-larger", 1);
}

/* How many packets the list takes, or would take if it could be sent. */
static size_t packets_of(const struct list *l)
{
    static uint8_t scratch[ROOM_MOST];
    struct second_packets s = second_packets(0, 0, l->bytes, l->size, l->sizes, l->count, scratch, sizeof scratch);
    return s.number ? (l->size + 182) / 183 : s.packets;
}

/* PID and counter that can be sent; or one, or both, that cannot. */
static void any_start(struct dice *d, unsigned *pid, unsigned *counter)
{
    *pid = one_in(d, 8) ? (one_in(d, 2) ? 8191 : 0) : below(d, 8192);
    *counter = one_in(d, 4) ? 15 : below(d, 16);
    if (one_in(d, 12))
        *pid = one_in(d, 3) ? 8192 : one_in(d, 2) ? 65535 : between(d, 8192, 65535);
    if (one_in(d, 12))
        *counter = one_in(d, 3) ? 16 : one_in(d, 2) ? 255 : between(d, 16, 255);
}

static void one_list(struct dice *d)
{
    static struct list l;
    static struct collector c;
    unsigned pid, counter;
    if (one_in(d, 64))
        fill(d, room_before, sizeof room_before);
    make_list_case(d, &l);
    any_start(d, &pid, &counter);
    size_t packets = packets_of(&l), room_size = any_room(d, packets);
    struct second_packets s = compare_packets(&l, pid, counter, room_size);
    room_met(&s, packets, room_size);
    if (s.number == 101) {
        struct second_packets other = second_packets(0, 0, l.bytes, l.size, l.sizes, l.count, room_second, room_size);
        met_word("101 for", pid > 8191 && counter > 15 ? "both" : pid > 8191 ? "pid" : "counter", 1);
        if (other.number)
            met_number("101 where there is", other.number);
    }
    if (s.number == 102) {
        bad_met(&l);
        if (l.size > 0 && room_size + 1 == packets * 188)
            met_word("102 where there is", "a-byte-short", 1);
        if (l.size > 0 && room_size == 0)
            met_word("102 where there is", "no-room", 1);
    }
    if (s.number)
        return;
    sizes_met(&l);
    layout_met(&l, room_second, s.packets, counter);
    c.record = lohitunga_fresh((uint16_t)pid);
    feed(&c, &l, room_second, s.packets);
    if (!one_in(d, 16))
        return;
    /* The next packets of the same sender */
    make_list(d, &l, 0);
    s = compare_packets(&l, pid, (unsigned)((counter + s.packets) % 16), packets_of(&l) * 188);
    feed(&c, &l, room_second, s.packets);
    met_word("packets written", "second-batch", 1);
}

const struct kind kind_writer = {"writer", 1, prepare_writer, NULL, one_list};
