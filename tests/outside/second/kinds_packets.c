/* Histories of packets: each call compared, and demand 3 over the whole history, with the judge's verdict of each whole section. */
#include "kinds.h"
#include "record.h"
#include "tally.h"

#include <stdio.h>
#include <stdlib.h>
#include <string.h>

enum { HISTORY_MOST = 80, LEDGER_MOST = HISTORY_MOST * 184 };

#define IN_WORDS(NAME, counter, words) words " "

/* The numbers by which a whole section is refused: of 1 and 5 it is none. */
#define REJECTIONS "2 3 4 6 7 8 9 10"

/* A packet's counter is the record's last one, the next or another, and the record is marked or not. */
#define BESIDE_RECORD(WORD) \
    WORD "equal " WORD "equal-marked " WORD "next " WORD "next-marked " WORD "other " WORD "other-marked "

static void prepare_packets(void)
{
    must_meet("collect", "taken repeated 41 42 43 44 45 46 47 48 49");
    must_meet("42 for", "hold out");
    must_meet("43 for no more than", "pid counter rejection in-hand no-counter first-0xFF declares over-4,096");
    must_meet("48 for control", "00 10 11");
    must_meet("49 for", "pointer payload-of-1");
    must_meet("packets taken", "without-payload with-sections over-4,200-out");
    must_meet("fates", SECOND_COUNTED(IN_WORDS) "in-hand");
    must_meet("rejected before a target", REJECTIONS);
    must_meet("rejected beyond a target", REJECTIONS);
    must_meet("rejected without a flag", REJECTIONS);
    must_meet("accepted", "before-a-target beyond-a-target without-a-flag");
    must_meet("in one packet", "two-numbers one-number-twice rejected-then-accepted accepted-then-rejected");
    must_meet("straddling", "accepted rejected");
    /* The hold ends with the section, at a guard page; or it has 904 bytes behind it. */
    must_meet("4,095 of 4,096 held", "accepted-hold-4,096 rejected-hold-4,096 accepted-hold-5,000 rejected-hold-5,000");
    must_meet("a number is kept", "refused repeated accepted rejected without-payload");
    must_meet("a record's rejection", "0-to-10 11-to-255 above");
    /* Byte 5 of the packet is above 127 or not: it is discontinuity_indicator, or payload. */
    must_meet("control 01", BESIDE_RECORD("") BESIDE_RECORD("above-127-"));
    must_meet("control 10", BESIDE_RECORD("") BESIDE_RECORD("bit-"));
    must_meet("control 11, length 0", BESIDE_RECORD("") BESIDE_RECORD("above-127-"));
    must_meet("control 11, length 1", BESIDE_RECORD("") BESIDE_RECORD("bit-"));
    must_meet("control 11, longer", BESIDE_RECORD("") BESIDE_RECORD("bit-"));
    must_meet("no counter, control", "01 01-marked 10 10-marked 10-bit 10-bit-marked");
    must_meet("no counter, control", "11 11-marked 11-bit 11-bit-marked");
    must_meet("marked, in hand", "0 1-or-more 4,095");
    must_meet("a mark of 2 or more", "refused 10 10-bit 01 11");
}

/* The ledger: every payload byte of the packets taken so far, with its fate */

static struct {
    uint8_t bytes[LEDGER_MOST], fates[LEDGER_MOST];
    uint8_t packets[LEDGER_MOST];       /* the packet that each came in, by its number among those taken with payload */
    uint8_t counters[HISTORY_MOST];     /* the continuity counter of each such packet */
    uint8_t marks[HISTORY_MOST + 1];    /* whether the bit was set in it, or in a packet since the one before it */
    size_t size, taken;
    uint8_t out[LEDGER_MOST];           /* what the library handed out, call after call */
    size_t out_size;
} ledger;

static uint8_t rejected[LEDGER_MOST];   /* the bytes of rejected sections in the ledger, end to end */

static void ledger_begins(void)
{
    ledger.size = ledger.taken = ledger.out_size = 0;
    memset(ledger.marks, 0, sizeof ledger.marks);
}

/* A packet that is not refused: the bit in it counts for the next one with payload, itself if it has any. */
static void ledger_marks(const struct second_collected *a, const uint8_t *packet)
{
    if (has_bit(packet))
        ledger.marks[ledger.taken] = 1;
    must(a->kind != SECOND_REPEATED || !ledger.marks[ledger.taken], "no packet behind a mark is repeated");
}

static void ledger_takes(const struct second_collected *a, const uint8_t *packet, const uint8_t *out)
{
    size_t held = 0;
    for (size_t i = 0; i < ledger.size; i++) {
        if (ledger.fates[i] != SECOND_IN_HAND)
            continue;
        ledger.fates[i] = a->fate[held++];
        must(a->payload == 0 || !ledger.marks[ledger.taken] || ledger.fates[i] == SECOND_BROKEN,
             "a mark breaks off what is in hand");
    }
    must(held == a->before, "the bytes in hand are those of the ledger");
    for (size_t i = 0; i < a->payload; i++) {
        ledger.bytes[ledger.size] = packet[188 - a->payload + i];
        ledger.fates[ledger.size] = a->fate[a->before + i];
        ledger.packets[ledger.size] = (uint8_t)ledger.taken;
        ledger.size++;
    }
    if (a->payload > 0)
        ledger.counters[ledger.taken++] = packet[3] % 16;
    memcpy(ledger.out + ledger.out_size, out, a->bytes);
    ledger.out_size += a->bytes;
}

/* "Modulo 2^32 the counters equal the bytes of each fate, and with those in hand they make up the payload taken." */
static void same_counts(const lohitunga_record *r)
{
    long long counts[SECOND_FATES] = {0}, library[SECOND_FATES];
    for (size_t i = 0; i < ledger.size; i++)
        counts[ledger.fates[i]]++;
    record_counters(r, library);
    library[SECOND_IN_HAND] = (long long)r->in_hand;
    same(RECORD_COUNTERS "in_hand", library, counts, SECOND_FATES);
}

/*
 * "Delivered bytes come out once, in order; no delivered section spans a break in the continuity counter from one taken
 * packet with payload to the next." Document 02: "and no delivered section spans a mark.", "and delivered bytes are the accepted
 * ones". These bytes are those of that fate; no rejected section spans a break or a mark either.
 */
static void in_order(uint8_t fate, const uint8_t *bytes, size_t size)
{
    size_t at = 0, left = 0, before = 0;
    for (size_t i = 0; i < ledger.size; i++) {
        if (ledger.fates[i] != fate)
            continue;
        must(at < size && bytes[at] == ledger.bytes[i], "the accepted bytes come out, in order");
        if (left == 0) {
            must(at + 3 <= size, "a whole section has its head");
            left = declared_by(bytes + at);
        } else {
            size_t from = ledger.packets[before], to = ledger.packets[i];
            must(from == to || (to == from + 1 && ledger.counters[to] == (ledger.counters[from] + 1) % 16),
                 "no whole section spans a break in the counter");
            must(from == to || !ledger.marks[to], "no whole section spans a mark");
        }
        before = i;
        left--;
        at++;
    }
    must(at == size, "no byte comes out twice");
    must(left == 0, "accepted and rejected bytes are whole sections");
}

/* Document 02: "a taken packet gives out only accepted sections"; and each of the others is refused. The last one's number. */
static unsigned judged(const uint8_t *sections, size_t size, int accepted)
{
    unsigned number = 0;
    for (size_t at = 0, n; at < size; at += n) {
        n = declared_by(sections + at);
        number = lohitunga_judge(sections + at, n).number;
        must((number == 0) == accepted, accepted ? "the judge accepts what comes out" : "the judge refuses what is rejected");
        must(number != 1 && number != 5, "no whole section is refused with 1 or 5");
    }
    return number;
}

/* "A rejected section's number is kept in the record, the last one only, 0 at first" */
static void parted_by_the_judge(const lohitunga_record *r)
{
    size_t size = 0;
    for (size_t i = 0; i < ledger.size; i++)
        if (ledger.fates[i] == SECOND_REJECTED)
            rejected[size++] = ledger.bytes[i];
    in_order(SECOND_ACCEPTED, ledger.out, ledger.out_size);
    in_order(SECOND_REJECTED, rejected, size);
    judged(ledger.out, ledger.out_size, 1);
    must(judged(rejected, size, 0) == r->rejection, "the number that is kept is that of the section rejected last");
}

static void fates_met(void)
{
#define NAMED(NAME, counter, words) words,
    static const char *const names[SECOND_FATES] = {SECOND_COUNTED(NAMED) "in-hand"};
    unsigned long counts[SECOND_FATES] = {0};
    for (size_t i = 0; i < ledger.size; i++)
        counts[ledger.fates[i]]++;
    for (int i = 0; i < SECOND_FATES; i++)
        met_word("fates", names[i], counts[i]);
}

/* One packet */

/* The record before a packet, and after it: field by field, so that a difference has a name, then every byte. */
static void same_record(const lohitunga_record *before, const lohitunga_record *r, const struct second_record *s)
{
    long long library[RECORD_MOST], second[RECORD_MOST];
    lohitunga_record wanted = *before;
    record_out(&wanted, s);
    record_values(r, library);
    same(RECORD_NAMES, library, second, record_values(&wanted, second));
    same_bytes("the record", (const uint8_t *)r, (const uint8_t *)&wanted, sizeof wanted);
}

static void record_told(const lohitunga_record *r)
{
#define PLAIN_TOLD(field, value) call_number("record." #field, (long long)r->field);
#define COUNTER_TOLD(NAME, field, words) call_number("record." #field, r->field);
    RECORD_PLAIN(PLAIN_TOLD)
    SECOND_COUNTED(COUNTER_TOLD)
    call_piece("record", r, sizeof *r);
}

enum { ROOM_MOST = 6000 };

/* A collector, and what is lent with it. */
struct collector {
    lohitunga_record record;
    uint8_t hold[ROOM_MOST], out[ROOM_MOST];
    size_t hold_size, out_size;
};

static uint8_t hold_second[ROOM_MOST], out_second[ROOM_MOST];

/* Which part of a refusal's sentence it was, so that none is left untried; of 43 where it is one part alone. */
static void part_met(const struct collector *c, const uint8_t *packet, unsigned number)
{
    const lohitunga_record *r = &c->record;
    const char *why = NULL;
    unsigned whys = 0, declared = 3 + (c->hold[1] % 16u * 256u + c->hold[2]), control = packet[3] / 16 % 4;
    switch (number) {
    case 42:
        met_word("42 for", c->hold_size < LOHITUNGA_HOLD ? "hold" : "out", 1);
        break;
    case 43:
        if (r->pid > 8191)
            why = "pid", whys++;
        if (r->last > 15 && r->last != LOHITUNGA_NO_COUNTER)
            why = "counter", whys++;
        if (r->rejection > 10)
            why = "rejection", whys++;
        if (r->in_hand > 4095)
            why = "in-hand", whys++;
        if (r->in_hand > 0 && r->last == LOHITUNGA_NO_COUNTER)
            why = "no-counter", whys++;
        if (r->in_hand > 0 && c->hold[0] == 0xFF)
            why = "first-0xFF", whys++;
        if (r->in_hand >= 3 && r->in_hand <= 4095 && declared <= r->in_hand)
            why = "declares", whys++;
        if (r->in_hand >= 3 && declared > 4096)
            why = "over-4,096", whys++;
        if (whys == 1)
            met_word("43 for no more than", why, 1);
        break;
    case 48:
        met_word("48 for control", control == 0 ? "00" : control == 2 ? "10" : "11", 1);
        break;
    case 49:
        met_word("49 for", control == 3 && packet[4] == 182 ? "payload-of-1" : "pointer", 1);
        break;
    }
}

/* What packet and record are by discontinuity_indicator, mark and counter, so that none is left untried. */
static void splice_met(const lohitunga_record *r, const uint8_t *packet, unsigned number)
{
    static const char *const lengths[] = {"control 11, length 0", "control 11, length 1", "control 11, longer"};
    static const char *const controls[] = {"00", "01", "10", "11"};
    unsigned control = packet[3] / 16 % 4, counter = packet[3] % 16, length = packet[4] < 2 ? packet[4] : 2;
    char word[24];
    if (r->mark > 1) {
        snprintf(word, sizeof word, "%s%s", controls[control], control == 2 && has_bit(packet) ? "-bit" : "");
        met_word("a mark of 2 or more", number ? "refused" : word, 1);
    }
    if (number)
        return;
    if (r->mark)
        met_word("marked, in hand", r->in_hand == 0 ? "0" : r->in_hand == 4095 ? "4,095" : "1-or-more", 1);
    const char *marked = r->mark ? "-marked" : "";
    if (r->last == LOHITUNGA_NO_COUNTER) {
        snprintf(word, sizeof word, "%s%s%s", controls[control], has_bit(packet) ? "-bit" : "", marked);
        met_word("no counter, control", word, 1);
        return;
    }
    snprintf(word, sizeof word, "%s%s%s", packet[5] < 128 ? "" : has_bit(packet) ? "bit-" : "above-127-",
             counter == r->last ? "equal" : counter == (r->last + 1u) % 16 ? "next" : "other", marked);
    met_word(control == 1 ? "control 01" : control == 2 ? "control 10" : lengths[length], word, 1);
}

/* Which sections came whole and where, so that none is left untried. */
static void sections_met(const struct collector *c, const uint8_t *packet, const struct second_collected *a)
{
    int start = a->payload > 0 && packet[1] & 0x40;
    size_t target = start ? a->before + 1 + packet[188 - a->payload] : 0;
    unsigned last = 0, accepted = 0;
    for (size_t i = 0; i < a->wholes; i++) {
        struct second_whole w = a->whole[i];
        int before = w.at + w.size <= target, straddles = w.at < a->before;
        char word[32];
        if (w.number)
            met_number(!start ? "rejected without a flag" : before ? "rejected before a target" : "rejected beyond a target", w.number);
        else
            met_word("accepted", !start ? "without-a-flag" : before ? "before-a-target" : "beyond-a-target", 1);
        met_word("straddling", w.number ? "rejected" : "accepted", straddles);
        if (straddles && w.size == 4096 && a->before == 4095 && (c->hold_size == 4096 || c->hold_size == 5000)) {
            snprintf(word, sizeof word, "%s-hold-%s", w.number ? "rejected" : "accepted", c->hold_size == 4096 ? "4,096" : "5,000");
            met_word("4,095 of 4,096 held", word, 1);
        }
        if (w.number && last)
            met_word("in one packet", w.number == last ? "one-number-twice" : "two-numbers", 1);
        if (i > 0 && !w.number && a->whole[i - 1].number)
            met_word("in one packet", "rejected-then-accepted", 1);
        if (w.number && accepted)
            met_word("in one packet", "accepted-then-rejected", 1);
        if (w.number)
            last = w.number;
        else
            accepted = 1;
    }
    if (c->record.rejection)
        met_word("a number is kept", a->number ? "refused" : a->kind == SECOND_REPEATED ? "repeated" : a->payload == 0 ? "without-payload" :
                 last ? "rejected" : accepted ? "accepted" : "without-a-section", 1);
}

/* The out room by its parts: the sections that were accepted, end to end, and no other. */
static void cut_out(const uint8_t *out, size_t size, lohitunga_collect_answer m)
{
    lohitunga_section_step step = lohitunga_next_section(out, size, (lohitunga_part){0, m.size});
    size_t sections = 0, at = 0;
    for (; step.found; step = lohitunga_next_section(out, size, step.rest)) {
        must(step.section.start == at, "the sections of the out room stand end to end");
        at += step.section.size;
        sections++;
    }
    must(sections == m.sections && at == m.size, "the out room is cut into the sections that were accepted");
}

/* One packet; record, hold and out are then as the library left them. */
static void compare_collect(struct collector *c, const uint8_t *packet, size_t size, struct second_collected *a)
{
    struct second_record after = record_in(&c->record);
    memcpy(hold_second, c->hold, c->hold_size);
    memcpy(out_second, c->out, c->out_size);
    second_collect(a, &after, hold_second, c->hold_size, out_second, c->out_size, packet, size);
    int repeated = a->number == 0 && a->kind == SECOND_REPEATED;
    lohitunga_record now;
    for (enum placing p = 0; p < PLACINGS; p++) {
        call_begins("lohitunga_collect", p);
        record_told(&c->record);
        call_number("out room", (long long)c->out_size);
        call_piece("packet", packet, size);
        call_piece("hold", c->hold, c->hold_size);
        void *record = room_lend(&rooms.state, &c->record, sizeof c->record, p, _Alignof(lohitunga_record));
        uint8_t *hold = room_lend(&rooms.hold, c->hold, c->hold_size, p, 1);
        uint8_t *out = room_lend(&rooms.out, c->out, c->out_size, p, 1);
        const uint8_t *lent = room_lend(&rooms.input, packet, size, p, 1);
        lohitunga_collect_answer m = lohitunga_collect(record, hold, c->hold_size, out, c->out_size, lent, size);
        long long library[] = {m.number, m.repeated, (long long)m.sections, (long long)m.size};
        long long second[] = {a->number, repeated, a->sections, a->bytes};
        same("number repeated sections size", library, second, 4);
        cut_out(out, c->out_size, m);
        memcpy(&now, room_now(&rooms.state), sizeof now);
        same_record(&c->record, &now, &after);
        if (a->number || repeated)
            same_bytes("the record, of which none alters", (const uint8_t *)&now, (const uint8_t *)&c->record, sizeof now);
        same_bytes("the hold", room_now(&rooms.hold), hold_second, c->hold_size);
        same_bytes("the out room", room_now(&rooms.out), out_second, c->out_size);
        must(room_back(&rooms.state), "the canaries beside the record stand");
        must(room_back(&rooms.hold), "the canaries beside the hold stand");
        must(room_back(&rooms.out), "the canaries beside the out room stand");
        must(room_back(&rooms.input), "the canaries beside the packet stand");
    }
    part_met(c, packet, a->number);
    splice_met(&c->record, packet, a->number);
    sections_met(c, packet, a);
    c->record = now;
    memcpy(c->hold, hold_second, c->hold_size);
    memcpy(c->out, out_second, c->out_size);
    if (a->number) {
        met_number("collect", a->number);
        return;
    }
    met_word("collect", repeated ? "repeated" : "taken", 1);
    if (a->sections > 0)
        met_word("packets taken", "with-sections", 1);
    if (a->bytes > 4200)
        met_word("packets taken", "over-4,200-out", 1);
    if (!repeated && a->payload == 0)
        met_word("packets taken", "without-payload", 1);
}

/* Records that nobody left so */

/* A number that is kept, mostly one that can stand. */
static uint32_t any_rejection(struct dice *d)
{
    return one_in(d, 8) ? (one_in(d, 3) ? 11 : any_count(d)) : below(d, 11);
}

/* A record, with a hold to it, that may stand or not, for packets of this sender. */
static void any_record(struct dice *d, struct collector *c, const struct sender *s)
{
    lohitunga_record *r = &c->record;
    fill(d, (uint8_t *)r, sizeof *r);
    r->in_hand = 0;
    r->pid = (uint16_t)(one_in(d, 12) ? (one_in(d, 2) ? 8191 + below(d, 3) : below(d, 65536)) : s->pid);
    r->last = (uint8_t)(one_in(d, 8) ? LOHITUNGA_NO_COUNTER : one_in(d, 4) ? below(d, 256) : below(d, 16));
    if (one_in(d, 2))
        r->last = (uint8_t)((s->counter + 15) % 16); /* so that the sender's next packet goes on with what is in hand */
    r->mark = any_mark(d);
    r->rejection = any_rejection(d);
#define ANY(NAME, field, words) r->field = any_count(d);
    SECOND_COUNTED(ANY)
    fill(d, c->hold, c->hold_size);
    if (one_in(d, 3))
        return;
    r->in_hand = one_in(d, 4) ? below(d, 4) : one_in(d, 3) ? between(d, 4080, 4097) : below(d, 4096);
    if (one_in(d, 8))
        r->in_hand = 4095;
    if (one_in(d, 24))
        r->in_hand = one_in(d, 2) ? SIZE_MAX : (size_t)dice_any(d);
    if (c->hold_size < 3 || one_in(d, 12))
        return;
    /* A head that declares more than is in hand: by a few bytes, or by any number; or not more. */
    c->hold[0] = one_in(d, 16) ? 0xFF : (uint8_t)(c->hold[0] % 255);
    unsigned most = r->in_hand < 4096 ? (unsigned)r->in_hand : 4095;
    unsigned declared = most + (one_in(d, 2) ? between(d, 0, 6) : between(d, 1, 4096));
    if (declared < 3)
        declared = 3;
    if (declared > 4096)
        declared = 4096;
    if (one_in(d, 8))
        declared = between(d, 4097, 4098);
    c->hold[1] = (uint8_t)(c->hold[1] / 16 * 16 + (declared - 3) / 256 % 16);
    c->hold[2] = (uint8_t)(declared - 3);
}

static size_t any_room(struct dice *d, size_t least)
{
    if (one_in(d, 3))
        return one_in(d, 2) ? least - 1 : below(d, (unsigned)least);
    return one_in(d, 2) ? least : least + below(d, (unsigned)(ROOM_MOST - least));
}

/* A section with which the hold can be filled, or any other; of 4 bytes or more. */
static void any_whole(struct dice *d, struct section *s)
{
    if (one_in(d, 2)) {
        do
            make_whole(d, s, one_in(d, 4));
        while (s->size < 4);
        return;
    }
    make_section_of_size(d, s, 4096);
    if (one_in(d, 2))
        spoil(d, s);
}

/*
 * A record by hand that holds all of a section but its end, and a packet that has it, mostly before its target, behind which it
 * is full of sections: with a hold that is full to the last byte but one this is the most that can come out. Where the record is
 * marked, what it holds is broken off.
 */
static void straddle(struct dice *d, struct collector *c)
{
    static struct section s;
    static uint8_t packet[188];
    static struct second_collected a;
    any_whole(d, &s);
    size_t most = s.size - 1 < 181 ? s.size - 1 : 181, end = one_in(d, 2) ? 1 : between(d, 1, (unsigned)most);
    size_t pointer = end + below(d, 2);
    c->hold_size = one_in(d, 2) ? LOHITUNGA_HOLD : 5000;
    c->out_size = one_in(d, 4) ? LOHITUNGA_OUT + below(d, 900) : LOHITUNGA_OUT;
    c->record = lohitunga_fresh((uint16_t)below(d, 8192));
    c->record.last = (uint8_t)below(d, 16);
    c->record.mark = one_in(d, 4) ? any_mark(d) : 0;
    c->record.rejection = any_rejection(d);
    c->record.in_hand = s.size - end;
    fill(d, c->hold, c->hold_size);
    memcpy(c->hold, s.bytes, c->record.in_hand);
    make_full_packet(d, c->record.pid, c->record.last + 1u, (unsigned)pointer, packet);
    if (one_in(d, 3)) {
        packet[1] ^= 0x40;
        memcpy(packet + 4, s.bytes + c->record.in_hand, end);
    } else {
        memcpy(packet + 5, s.bytes + c->record.in_hand, end);
    }
    compare_collect(c, packet, 188, &a);
}

/* Each number that a record can have for the section rejected last, and packets that are refused, repeated, accepted, rejected. */
static void every_rejection(void)
{
    static const struct { size_t size; uint8_t bytes[9]; } payloads[] = {
        {9, {0, 0x70, 0x70, 0x05, 0xC0, 0x79, 0x12, 0x45, 0x00}}, /* document 01's TDT */
        {7, {0, 0x00, 0x00, 0x00, 0x70, 0x70, 0x00}},             /* 2, then 4 */
        {4, {0, 0x70, 0xF0, 0x00}},                               /* 3 */
        {1, {0}},
    };
    static struct collector c;
    static struct second_collected a;
    static uint8_t packet[188];
    struct dice d = dice_of(0, 0, 0);
    c.hold_size = LOHITUNGA_HOLD;
    c.out_size = LOHITUNGA_OUT;
    for (unsigned n = 0; n < 256 + 24; n++)
        for (unsigned i = 0; i < 3 * COUNT(payloads); i++) {
            fill(&d, (uint8_t *)&c.record, sizeof c.record);
            fill(&d, c.hold, sizeof c.hold);
            fill(&d, c.out, sizeof c.out);
            c.record.pid = 0x14;
            c.record.last = (uint8_t)(i % 3 == 0 ? 5 : 4);
            c.record.mark = 0;
            uint32_t number = n < 256 ? n : UINT32_C(1) << (n - 248); /* above 255 a number whose low byte alone could stand */
            c.record.rejection = number;
            c.record.in_hand = 0;
            memset(packet, 0xFF, sizeof packet);
            memcpy(packet, i % 3 == 1 ? "\x46\x40\x14\x15" : "\x47\x40\x14\x15", 4);
            memcpy(packet + 4, payloads[i / 3].bytes, payloads[i / 3].size);
            compare_collect(&c, packet, 188, &a);
            must((a.number == 43) == (number > 10), "any number but 0 to 10 is refused with 43");
        }
    met_word("a record's rejection", "0-to-10", 11);
    met_word("a record's rejection", "11-to-255", 245);
    met_word("a record's rejection", "above", 24);
}

/* A history */

static void one_history(struct dice *d)
{
    static struct collector c;
    static struct sender s;
    static uint8_t packet[PACKET_MOST];
    static struct second_collected a;
    if (one_in(d, 6)) {
        straddle(d, &c);
        return;
    }
    make_sender(d, &s);
    c.hold_size = one_in(d, 8) ? LOHITUNGA_HOLD + below(d, 900) : LOHITUNGA_HOLD;
    c.out_size = one_in(d, 8) ? LOHITUNGA_OUT + below(d, 900) : LOHITUNGA_OUT;
    fill(d, c.hold, c.hold_size);
    if (one_in(d, 16))
        fill(d, c.out, sizeof c.out);

    /* From a fresh record, handed on untouched: then the ledger is kept. Or from any record, with any rooms. */
    int kept = !one_in(d, 4);
    c.record = lohitunga_fresh((uint16_t)(kept || one_in(d, 2) ? s.pid : below(d, 65536)));
    struct second_record fresh = second_fresh(c.record.pid);
    call_begins("lohitunga_fresh", AT_END);
    static const lohitunga_record zeros;
    same_record(&zeros, &c.record, &fresh);
    if (!kept && !one_in(d, 4))
        any_record(d, &c, &s);
    ledger_begins();

    unsigned packets = s.large ? between(d, 1, HISTORY_MOST) : kept ? between(d, 1, 16) : between(d, 1, 6);
    int often = one_in(d, 16);
    for (unsigned i = 0; i < packets; i++) {
        if (!kept && one_in(d, 12)) {
            c.hold_size = any_room(d, LOHITUNGA_HOLD);
            c.out_size = any_room(d, LOHITUNGA_OUT);
            if (one_in(d, 2))
                any_record(d, &c, &s);
        }
        size_t size = make_packet(d, &s, packet);
        compare_collect(&c, packet, size, &a);
        if (!kept || a.number)
            continue;
        ledger_marks(&a, packet);
        if (a.kind == SECOND_REPEATED)
            continue;
        ledger_takes(&a, packet, c.out);
        if (often)
            same_counts(&c.record);
    }
    if (!kept)
        return;
    same_counts(&c.record);
    parted_by_the_judge(&c.record);
    fates_met();
}

/* A history has about eleven packets. */
const struct kind kind_packets = {"packets", 8, prepare_packets, every_rejection, one_history};
