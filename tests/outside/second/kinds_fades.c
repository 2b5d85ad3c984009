/*
 * Request (xii) of document 02: "take any two histories; if both then take the same packet with payload and the start flag,
 * everything delivered from beyond its pointer's target is the same, now and for all packets that follow alike, and so are last
 * counter, mark and bytes in hand." The second implementation is not asked: the library is compared with itself, and what stands
 * beyond the target is read here, a section at a time, with the judge's verdict of each.
 */
#include "kinds.h"
#include "record.h"
#include "tally.h"

#include <string.h>

enum { LATER = 20, STREAM_MOST = 8, ROOM_MORE = 900, GARBAGE = 16384 };

/* One of the two, with all that is lent with it in rooms of its own, at guard pages for the whole case. */
struct history {
    struct room *state, *hold_room, *out_room;
    lohitunga_record *record;
    uint8_t *hold, *out;
    size_t hold_size, out_size;
    unsigned packets; /* it has had so many */
};

static struct room other_state, other_hold, other_out;
static struct history both[2] = {
    {&rooms.state, &rooms.hold, &rooms.out, NULL, NULL, NULL, 0, 0, 0},
    {&other_state, &other_hold, &other_out, NULL, NULL, NULL, 0, 0, 0},
};

/* What both take, and what of it some take before. */
static struct {
    struct sender sender;
    uint8_t packet[PACKET_MOST];                /* the one with the start flag; then those behind it */
    uint8_t stream[STREAM_MOST][PACKET_MOST];   /* what the sender sent before */
    size_t sizes[STREAM_MOST], count;
    struct section ends;                        /* where the packet is not the sender's: a section of which the last bytes, */
    size_t left;                                /* so many, stand before the target, or as many of them as have room there */
} common;

static uint8_t garbage[GARBAGE];

static void prepare_fades(void)
{
    must_meet("pasts", "fresh by-hand no-packet packets holding a-fade other-lengths");
    must_meet("the pair", "mark-in-one-only next-in-one-only in-hand-in-one-only number-in-one-only no-counter-in-one");
    must_meet("before its target", "nothing-in-hand cut-off too-long unfinished ends-before ends-at");
    must_meet("in one only", "delivered-before-it delivered-at-it rejected-before-it rejected-at-it broken-off-at-it");
    must_meet("beyond its target", "accepted rejected filler too-long unfinished to-the-last-byte nothing-accepted");
    must_meet("pointer of", "0 1-or-more");
    must_meet("behind the packet", "counters-differ number-differs number-the-same");
    must_meet("number that differs", "heals never-heals");
    must_meet("counters", "ran-round");
    must_meet("packets behind it", "41 42 44 45 46 47 48 49 repeated bare bare-with-the-bit start no-start counter-breaks");
    must_meet("handed out behind it", "something");
    must_meet("repeated", "in-one-only in-one-only-apart in-both");
    must_meet("without the flag", "delivered-apart in-hand-apart");
    room_make(&other_state, 4096, 1);
    room_make(&other_hold, 8192, 1);
    room_make(&other_out, 12288, 1);
    watch_room("the other record", &other_state);
    watch_room("the other hold", &other_hold);
    watch_room("the other out room", &other_out);
}

/* The same for every seed: what stands in hold and out room at first matters to nobody. */
static void fill_garbage(void)
{
    struct dice d = dice_of(0, 0, 0);
    fill(&d, garbage, sizeof garbage);
}

/* Rooms */

static void lend_all(struct dice *d, struct history *h)
{
    lohitunga_record fresh = lohitunga_fresh((uint16_t)common.sender.pid);
    enum placing p = below(d, PLACINGS);
    h->hold_size = LOHITUNGA_HOLD + (one_in(d, 2) ? below(d, ROOM_MORE) : 0);
    h->out_size = LOHITUNGA_OUT + (one_in(d, 2) ? below(d, ROOM_MORE) : 0);
    h->record = (void *)room_lend(h->state, &fresh, sizeof fresh, p, _Alignof(lohitunga_record));
    h->hold = room_lend(h->hold_room, garbage + below(d, GARBAGE / 2), h->hold_size, p, 1);
    h->out = room_lend(h->out_room, garbage + below(d, GARBAGE / 2), h->out_size, p, 1);
    h->packets = 0;
}

static void all_back(struct history *h)
{
    must(room_back(h->state), "the canaries beside the record stand");
    must(room_back(h->hold_room), "the canaries beside the hold stand");
    must(room_back(h->out_room), "the canaries beside the out room stand");
}

/* Calls */

static void told(const uint8_t *packet, size_t size, enum placing p)
{
    call_begins("lohitunga_collect", p);
    call_piece("packet", packet, size);
    call_piece("one record, now", both[0].record, sizeof *both[0].record);
    call_piece("the other record, now", both[1].record, sizeof *both[1].record);
    call_piece("one hold, now", both[0].hold, both[0].hold_size);
    call_piece("the other hold, now", both[1].hold, both[1].hold_size);
}

static lohitunga_collect_answer take(struct history *h, const uint8_t *packet, size_t size)
{
    return lohitunga_collect(h->record, h->hold, h->hold_size, h->out, h->out_size, packet, size);
}

/* The same packet to both, read-only and at guard pages. */
static void both_take(struct dice *d, size_t size, lohitunga_collect_answer m[2])
{
    enum placing p = below(d, PLACINGS);
    told(common.packet, size, p);
    const uint8_t *packet = lend(common.packet, size, p);
    for (int i = 0; i < 2; i++)
        m[i] = take(&both[i], packet, size);
    back();
}

/* Reading of a packet with payload */

static size_t payload_at(const uint8_t *k) { return k[3] & 0x20 ? 5u + k[4] : 4u; }

/* With payload and the start flag, for this PID, and no reason to refuse it. */
static int starts(const uint8_t *k, size_t size, unsigned pid)
{
    if (size != 188 || k[0] != 0x47 || k[1] & 0x80 || k[1] % 32u * 256u + k[2] != pid || k[3] & 0xC0)
        return 0;
    if (!(k[1] & 0x40) || !(k[3] & 0x10) || payload_at(k) > 186)
        return 0;
    return payload_at(k) + 1u + k[payload_at(k)] < 188;
}

/* Whether it is called repeated: its counter is the last one, and no splice is marked. */
static int repeats(const lohitunga_record *r, const uint8_t *k)
{
    return r->last == k[3] % 16 && !r->mark && !has_bit(k);
}

static int is_next(const lohitunga_record *r, const uint8_t *k)
{
    return r->last != LOHITUNGA_NO_COUNTER && k[3] % 16 == (r->last + 1) % 16;
}

/* What is in hand when a packet with the start flag comes, and the stretch before its target. */
enum before { NOTHING_IN_HAND, CUT_OFF, DECLARES_TOO_MUCH, UNFINISHED, ENDS_BEFORE, ENDS_AT };

struct straddling {
    enum before how;
    uint8_t bytes[LOHITUNGA_HOLD + 184];
    size_t size;        /* where it ends: of the whole section, */
    unsigned number;    /* and the judge's number */
    lohitunga_record counted;   /* the bytes of each fate from what is in hand to the target */
};

static void count_before(struct straddling *s, size_t in_hand, size_t pointed)
{
    lohitunga_record *c = &s->counted;
    *c = lohitunga_fresh(0);
    c->pointer = 1;
    if (s->how == NOTHING_IN_HAND || s->how == CUT_OFF) {
        c->broken = (uint32_t)in_hand;
        c->skipped = (uint32_t)pointed;
    } else if (s->how < ENDS_BEFORE) {
        c->broken = (uint32_t)(in_hand + pointed);
    } else {
        *(s->number ? &c->rejected : &c->accepted) = (uint32_t)s->size;
        c->filler = (uint32_t)(in_hand + pointed - s->size);
    }
}

static void read_before(const struct history *h, const uint8_t *k, struct straddling *s)
{
    const lohitunga_record *r = h->record;
    size_t first = payload_at(k), have = r->in_hand + k[first];
    s->size = 0;
    s->number = 0;
    s->how = r->in_hand == 0 ? NOTHING_IN_HAND : CUT_OFF;
    if (r->in_hand > 0 && !r->mark && !has_bit(k) && is_next(r, k)) {
        memcpy(s->bytes, h->hold, r->in_hand);
        memcpy(s->bytes + r->in_hand, k + first + 1, k[first]);
        size_t size = have < 3 ? 3 : declared_by(s->bytes);
        s->how = size > have ? UNFINISHED : size == have ? ENDS_AT : ENDS_BEFORE;
        if (have >= 3 && size > LOHITUNGA_HOLD)
            s->how = DECLARES_TOO_MUCH;
        if (s->how >= ENDS_BEFORE) {
            s->size = size;
            s->number = lohitunga_judge(s->bytes, size).number;
        }
    }
    count_before(s, r->in_hand, k[first]);
}

/* Beyond the target: the sections that stand there whole, and what of the last one is there. */
struct beyond {
    uint8_t accepted[188];
    size_t size, sections;           /* bytes and sections that were accepted */
    unsigned number;                 /* of the section rejected last */
    size_t unfinished, in_hand;      /* it begins there, and has so many bytes */
    lohitunga_record counted;        /* the bytes of each fate */
    const char *end;
};

static void read_beyond(const uint8_t *k, struct beyond *b)
{
    size_t at = payload_at(k) + 1u + k[payload_at(k)], size;
    memset(b, 0, sizeof *b);
    for (; at < 188 && k[at] != 0xFF; at += size) {
        size = 188 - at < 3 ? 3 : declared_by(k + at);
        if (188 - at >= 3 && size > LOHITUNGA_HOLD) {
            b->end = "too-long";
            b->counted.broken = (uint32_t)(188 - at);
            return;
        }
        if (size > 188 - at) {
            b->unfinished = at;
            b->in_hand = 188 - at;
            b->end = "unfinished";
            return;
        }
        unsigned number = lohitunga_judge(k + at, size).number;
        if (number) {
            b->number = number;
            b->counted.rejected += (uint32_t)size;
            continue;
        }
        memcpy(b->accepted + b->size, k + at, size);
        b->counted.accepted += (uint32_t)size;
        b->size += size;
        b->sections++;
    }
    b->counted.filler = (uint32_t)(188 - at);
    b->end = at < 188 ? "filler" : "to-the-last-byte";
}

/* Pasts */

static void set_in_hand(struct history *h, size_t in_hand, size_t declared)
{
    h->record->in_hand = in_hand;
    h->hold[0] = (uint8_t)(h->hold[0] % 255);
    h->hold[1] = (uint8_t)(h->hold[1] / 16 * 16 + (declared - 3) / 256);
    h->hold[2] = (uint8_t)(declared - 3);
}

/* A record that can stand, and that no packet left so. */
static void by_hand(struct dice *d, struct history *h)
{
    lohitunga_record *r = h->record;
    r->last = (uint8_t)(one_in(d, 8) ? LOHITUNGA_NO_COUNTER : below(d, 16));
    r->mark = any_mark(d);
    r->rejection = below(d, 11);
#define ANY(NAME, field, words) r->field = any_count(d);
    SECOND_COUNTED(ANY)
    if (r->last == LOHITUNGA_NO_COUNTER || one_in(d, 3))
        return;
    size_t in_hand = one_in(d, 4) ? below(d, 4) : one_in(d, 4) ? between(d, 4000, 4095) : below(d, 1000);
    size_t more = one_in(d, 2) ? between(d, 1, 200) : between(d, 1, 4096), declared = in_hand + more;
    set_in_hand(h, in_hand, declared < 3 ? 3 : declared > 4096 ? 4096 : declared);
}

/* The record holds all of the section whose last bytes the packet has, and goes on with it or, by its counter or mark, does not. */
static void holds_all_but_the_end(struct dice *d, struct history *h)
{
    lohitunga_record *r = h->record;
    if (!one_in(d, 12))
        r->last = (uint8_t)((common.packet[3] + 15) % 16);
    else if (r->last == LOHITUNGA_NO_COUNTER)
        r->last = (uint8_t)below(d, 16);
    r->mark = one_in(d, 6) ? any_mark(d) : 0;
    r->in_hand = common.ends.size - common.left;
    memcpy(h->hold, common.ends.bytes, r->in_hand);
    met_word("pasts", "holding", 1);
}

static void passes(struct history *h, const uint8_t *packet, size_t size)
{
    told(packet, size, AT_END);
    take(h, packet, size);
    h->packets++;
}

/* The packets of a sender that nobody else hears. */
static void passes_its_own(struct dice *d, struct history *h)
{
    static struct sender own;
    static uint8_t packet[PACKET_MOST];
    make_sender(d, &own);
    own.pid = common.sender.pid;
    own.large = one_in(d, 16);
    for (unsigned i = one_in(d, 40) ? below(d, 60) : below(d, 7); i > 0; i--) {
        size_t size = make_packet(d, &own, packet);
        passes(h, packet, size);
    }
}

/* What the sender sent before, all of it or but for a fade. */
static void passes_the_stream(struct dice *d, struct history *h)
{
    size_t from = 0, to = 0;
    if (common.count > 0 && one_in(d, 2)) {
        from = below(d, (unsigned)common.count);
        to = between(d, (unsigned)from + 1, (unsigned)common.count);
        met_word("pasts", "a-fade", 1);
    }
    for (size_t i = 0; i < common.count; i++)
        if (i < from || i >= to)
            passes(h, common.stream[i], common.sizes[i]);
}

static void make_past(struct dice *d, struct history *h, int sent)
{
    int hand = one_in(d, 2);
    if (hand)
        by_hand(d, h);
    met_word("pasts", hand ? "by-hand" : "fresh", 1);
    switch (below(d, 6)) {
    case 0:
    case 1:
    case 2:
        if (sent)
            passes_the_stream(d, h);
        else
            holds_all_but_the_end(d, h);
        break;
    case 3:
        break;
    case 4:
        passes_the_stream(d, h);
        break;
    default:
        passes_its_own(d, h);
    }
    must(h->record->in_hand < LOHITUNGA_HOLD, "no more than 4,095 bytes are in hand");
    met_word("pasts", h->packets > 0 ? "packets" : "no-packet", 1);
}

/* The packet */

/* Packets of the sender up to one that starts, which is then the packet; or some of them alone. Whether the packet is there. */
static int make_stream(struct dice *d, int wanted)
{
    unsigned least = below(d, 4);
    for (common.count = 0; common.count < (wanted ? STREAM_MOST : least); common.count++) {
        size_t size = make_packet(d, &common.sender, common.packet);
        if (wanted && common.count >= least && starts(common.packet, size, common.sender.pid))
            return 1;
        memcpy(common.stream[common.count], common.packet, size);
        common.sizes[common.count] = size;
    }
    return 0;
}

/* Bytes of a section wait to be sent, from its first or from a later one on. */
static void waits(const uint8_t *bytes, size_t size, int begins)
{
    struct sender *s = &common.sender;
    memcpy(s->queue + s->size, bytes, size);
    memset(s->begins + s->size, 0, size);
    s->begins[s->size] = (uint8_t)begins;
    s->size += size;
}

/* Sections of any kind to the end of the packet, or what ends them; what is left of the last one waits at the sender. */
static void put_beyond(struct dice *d, uint8_t *to, size_t room)
{
    static struct section s;
    for (size_t at = 0, n; at < room; at += n) {
        unsigned end = below(d, 10);
        if (end == 0)
            to[at] = 0xFF;
        if (end == 1 && room - at >= 3)
            to[at] = 0x4E, to[at + 1] |= 0x0F, to[at + 2] = (uint8_t)between(d, 0xFE, 0xFF);
        if (end < 2)
            return;
        make_whole(d, &s, one_in(d, 40));
        n = s.size < room - at ? s.size : room - at;
        memcpy(to + at, s.bytes, n);
        if (n < s.size)
            waits(s.bytes + n, s.size - n, 0);
    }
}

/* What it points to: its next byte, the end of the section that some hold, a place behind that, or one in front of it. */
static size_t any_pointer(struct dice *d, size_t most)
{
    size_t left = common.left < most ? common.left : most;
    switch (below(d, 4)) {
    case 0: return 0;
    case 1: return left;
    case 2: return between(d, (unsigned)left, (unsigned)most);
    default: return below(d, (unsigned)left + 1);
    }
}

/* A section that a record can hold all of but its end; or so little of it that its head, which declares too much, is not there yet. */
static void make_ending(struct dice *d)
{
    struct section *s = &common.ends;
    do
        make_whole(d, s, one_in(d, 16));
    while (s->size < 4);
    size_t most = s->size - 1 < 181 ? s->size - 1 : 181;
    common.left = between(d, 1, (unsigned)(one_in(d, 2) || most < 40 ? most : 40));
    if (s->size <= 181 && one_in(d, 16)) {
        common.left = s->size - between(d, 1, 2);
        s->bytes[1] |= 0x0F;
        s->bytes[2] |= 0xFE;
    }
}

/* The packet, whatever the sender sent before; the sender goes on with what it leaves. */
static void make_start(struct dice *d)
{
    uint8_t *k = common.packet;
    size_t first = 4, pointer, counter = common.sender.counter % 16;
    make_ending(d);
    common.sender.size = common.sender.sent = 0;
    if (one_in(d, 5)) {
        pointer = any_pointer(d, 182);
        make_full_packet(d, common.sender.pid, (unsigned)counter, (unsigned)pointer, k);
    } else {
        fill(d, k, 188);
        k[0] = 0x47;
        k[1] = (uint8_t)(0x40 | (k[1] & 0x20) | common.sender.pid / 256);
        k[2] = (uint8_t)common.sender.pid;
        k[3] = (uint8_t)(0x10 | counter);
        if (one_in(d, 4)) {
            k[3] |= 0x20;
            k[4] = (uint8_t)(one_in(d, 2) ? below(d, 2) : below(d, 182));
            if (k[4] > 0 && !one_in(d, 4))
                k[5] &= 0x7F;
            first = 5u + k[4];
        }
        pointer = any_pointer(d, 186 - first);
        k[first] = (uint8_t)pointer;
        put_beyond(d, k + first + 1 + pointer, 187 - first - pointer);
    }
    memcpy(k + first + 1, common.ends.bytes + common.ends.size - common.left, pointer < common.left ? pointer : common.left);
}

/* The packet on copies */

static struct copy {
    lohitunga_record record;
    uint8_t hold[LOHITUNGA_HOLD], out[LOHITUNGA_OUT];
    lohitunga_collect_answer m;
} copies[2];

static void copies_take(const uint8_t *packet)
{
    told(packet, 188, AT_END);
    for (int i = 0; i < 2; i++) {
        struct copy *c = &copies[i];
        c->record = *both[i].record;
        memcpy(c->hold, both[i].hold, c->record.in_hand);
        c->m = lohitunga_collect(&c->record, c->hold, sizeof c->hold, c->out, sizeof c->out, packet, 188);
        must(c->m.number == 0, "the packet is not refused");
    }
}

static int in_hand_apart(void)
{
    const struct copy *a = &copies[0], *b = &copies[1];
    return a->record.in_hand != b->record.in_hand || memcmp(a->hold, b->hold, a->record.in_hand) != 0;
}

static int delivered_apart(void)
{
    const struct copy *a = &copies[0], *b = &copies[1];
    return a->m.sections != b->m.sections || a->m.size != b->m.size || memcmp(a->out, b->out, a->m.size) != 0;
}

/* The request's "both then take" leaves out a packet that either calls repeated: behind that one they may stand apart. */
static void tried_as_repeated(void)
{
    int in[2] = {repeats(both[0].record, common.packet), repeats(both[1].record, common.packet)};
    copies_take(common.packet);
    for (int i = 0; i < 2; i++)
        must(copies[i].m.repeated == (uint32_t)in[i], "repeated is the last counter again, without a mark");
    met_word("repeated", in[0] && in[1] ? "in-both" : "in-one-only", 1);
    if (in[0] != in[1] && (in_hand_apart() || copies[0].record.mark != copies[1].record.mark))
        met_word("repeated", "in-one-only-apart", 1);
}

/* And the start flag matters: without it two histories come to something else. */
static void tried_without_flag(void)
{
    static uint8_t packet[188];
    memcpy(packet, common.packet, 188);
    packet[1] &= 0xBF;
    copies_take(packet);
    met_word("without the flag", delivered_apart() ? "delivered-apart" : in_hand_apart() ? "in-hand-apart" : "no-difference", 1);
}

static void set_counter(unsigned counter)
{
    common.packet[3] = (uint8_t)((common.packet[3] & 0xF0) | counter % 16);
    common.sender.counter = counter % 16 + 1;
}

/* The packet's counter as it is, or by one of the records; in the end one that neither calls repeated. */
static void choose_counter(struct dice *d)
{
    const lohitunga_record *one = both[0].record, *other = both[1].record, *r = one_in(d, 2) ? one : other;
    set_counter(common.packet[3]);
    if (one_in(d, 4) && r->last != LOHITUNGA_NO_COUNTER)
        set_counter(r->last + (one_in(d, 3) ? 0u : 1u));
    if (repeats(one, common.packet) || repeats(other, common.packet))
        tried_as_repeated();
    while (repeats(one, common.packet) || repeats(other, common.packet))
        set_counter(below(d, 16));
}

/* What is compared, from the packet on */

static struct {
    lohitunga_record behind[2];     /* each record behind the packet */
    uint32_t number[2];             /* what each had for the section rejected last at the target */
    int healed, differed;           /* a section from beyond the target was rejected; the numbers differed behind the packet */
    int ran_round;
} since;

/* "and so are last counter, mark and bytes in hand" */
static void same_state(void)
{
    long long rows[2][3];
    for (int i = 0; i < 2; i++) {
        const lohitunga_record *r = both[i].record;
        rows[i][0] = r->last;
        rows[i][1] = r->mark;
        rows[i][2] = (long long)r->in_hand;
    }
    alike("last mark in_hand", rows[0], rows[1], 3);
    must(both[0].record->in_hand < LOHITUNGA_HOLD, "no more than 4,095 bytes are in hand");
    alike_bytes("what is in hand", both[0].hold, both[1].hold, both[0].record->in_hand);
}

/* "the last rejected number until the next rejection of a section from beyond that target, may differ" */
static void same_number(void)
{
    long long one = both[0].record->rejection, other = both[1].record->rejection;
    if (since.healed)
        alike("rejection", &one, &other, 1);
    else
        must(one == since.number[0] && other == since.number[1], "until a section is rejected each number stays what it was at the target");
}

/* "The byte counters .. may differ", but from the packet on they grow alike. */
static void same_growth(void)
{
    long long now[2][SECOND_COUNTERS], then[2][SECOND_COUNTERS];
    for (int i = 0; i < 2; i++) {
        record_counters(both[i].record, now[i]);
        record_counters(&since.behind[i], then[i]);
        for (int j = 0; j < SECOND_COUNTERS; j++) {
            since.ran_round |= now[i][j] < then[i][j];
            now[i][j] = (uint32_t)(now[i][j] - then[i][j]);
        }
    }
    alike(RECORD_COUNTERS, now[0], now[1], SECOND_COUNTERS);
}

/* The counters behind the packet: what they were, what came up to its target, and the same from there on in both. */
static void counted_from_target(const lohitunga_record *was, const struct straddling *s, const struct beyond *b, const lohitunga_record *now)
{
#define COUNTED(NAME, field, words) \
    must(now->field == (uint32_t)(was->field + s->counted.field + b->counted.field), \
         "from the target on the counter of " words " grows by what stands beyond it");
    SECOND_COUNTED(COUNTED)
#undef COUNTED
}

/* The packet itself: at most one section from before its target, then those from beyond it, as they are read here. */
static void same_beyond(int i, lohitunga_collect_answer m, const struct straddling *s, const struct beyond *b)
{
    const struct history *h = &both[i];
    int ended = s->how >= ENDS_BEFORE;
    size_t before = ended && s->number == 0 ? s->size : 0;
    must(m.sections == b->sections + (before > 0) && m.size == before + b->size,
         "delivered are at most one section from before the target, the one in hand, and from beyond it all that stand there and are accepted");
    must(memcmp(h->out, s->bytes, before) == 0, "what is delivered from before the target is the section in hand");
    must(memcmp(h->out + before, b->accepted, b->size) == 0, "what is delivered from beyond the target is what stands there and is accepted");
    must(h->record->in_hand == b->in_hand && memcmp(h->hold, common.packet + b->unfinished, b->in_hand) == 0,
         "in hand is what stands unfinished beyond the target");
    counted_from_target(&since.behind[i], s, b, h->record);
    since.number[i] = ended && s->number ? s->number : since.behind[i].rejection;
    since.behind[i] = *h->record;
}

/* Of the two before the packet, so that none is left untried. */
static void pair_met(const struct straddling s[2])
{
    static const char *const hows[] = {"nothing-in-hand", "cut-off", "too-long", "unfinished", "ends-before", "ends-at"};
    const lohitunga_record *a = both[0].record, *b = both[1].record;
    met_word("pasts", "other-lengths", both[0].packets != both[1].packets);
    met_word("the pair", "mark-in-one-only", !a->mark != !b->mark);
    met_word("the pair", "next-in-one-only", is_next(a, common.packet) != is_next(b, common.packet));
    met_word("the pair", "in-hand-in-one-only", (a->in_hand > 0) != (b->in_hand > 0));
    met_word("the pair", "number-in-one-only", (a->rejection > 0) != (b->rejection > 0));
    met_word("the pair", "no-counter-in-one", (a->last == LOHITUNGA_NO_COUNTER) != (b->last == LOHITUNGA_NO_COUNTER));
    for (int i = 0; i < 2; i++) {
        enum before how = s[i].how, others = s[1 - i].how;
        met_word("before its target", hows[how], 1);
        if (how == UNFINISHED && others != UNFINISHED)
            met_word("in one only", "broken-off-at-it", 1);
        if (how >= ENDS_BEFORE && others < ENDS_BEFORE && s[i].number == 0)
            met_word("in one only", how == ENDS_AT ? "delivered-at-it" : "delivered-before-it", 1);
        if (how >= ENDS_BEFORE && others < ENDS_BEFORE && s[i].number)
            met_word("in one only", how == ENDS_AT ? "rejected-at-it" : "rejected-before-it", 1);
    }
}

static void beyond_met(const struct beyond *b)
{
    long long one[SECOND_COUNTERS], other[SECOND_COUNTERS];
    met_word("pointer of", common.packet[payload_at(common.packet)] ? "1-or-more" : "0", 1);
    met_word("beyond its target", b->end, 1);
    met_word("beyond its target", "accepted", b->sections > 0);
    met_word("beyond its target", "rejected", b->number > 0);
    met_word("beyond its target", "nothing-accepted", b->sections == 0);
    record_counters(both[0].record, one);
    record_counters(both[1].record, other);
    met_word("behind the packet", "counters-differ", memcmp(one, other, sizeof one) != 0);
    met_word("behind the packet", since.differed ? "number-differs" : "number-the-same", 1);
}

static void the_packet(struct dice *d)
{
    static struct straddling s[2];
    static struct beyond b;
    lohitunga_collect_answer m[2];
    for (int i = 0; i < 2; i++) {
        read_before(&both[i], common.packet, &s[i]);
        since.behind[i] = *both[i].record;
    }
    read_beyond(common.packet, &b);
    pair_met(s);
    both_take(d, 188, m);
    for (int i = 0; i < 2; i++)
        must(m[i].number == 0 && m[i].repeated == 0, "the packet is taken in both");
    same_state();
    for (int i = 0; i < 2; i++)
        same_beyond(i, m[i], &s[i], &b);
    since.healed = b.number > 0;
    since.differed = both[0].record->rejection != both[1].record->rejection;
    since.ran_round = 0;
    same_number();
    must(!since.healed || both[0].record->rejection == b.number, "the number that is kept is that of the section rejected last");
    beyond_met(&b);
}

/* The packets behind it */

/* The one before again, damaged so that it is refused or not; its size. */
static size_t make_again(struct dice *d, uint8_t *k)
{
    switch (below(d, 12)) {
    case 0: return one_in(d, 2) ? 187 : 189;
    case 1: k[0] ^= (uint8_t)(1u << below(d, 8)); break;
    case 2: k[1] |= 0x80; break;
    case 3: k[2] ^= (uint8_t)(1u << below(d, 8)); break;
    case 4: k[3] |= (uint8_t)(between(d, 1, 3) << 6); break;
    case 5: k[3] &= 0xCF; break;
    case 6: k[3] |= 0x30, k[4] = (uint8_t)between(d, 183, 255); break;
    case 7: k[1] |= 0x40, k[3] = (uint8_t)((k[3] & 0xDF) | 0x10), k[4] = (uint8_t)between(d, 183, 255); break;
    case 8:
    case 9: /* without payload, discontinuity_indicator set or not */
        k[3] = (uint8_t)((k[3] & 0xEF) | 0x20), k[4] = 183, k[5] ^= 0x80;
        break;
    }
    return 188;
}

/* The next one of the sender, some of which are lost, or the one before again. `sent` is that one. */
static size_t make_later(struct dice *d, uint8_t *sent)
{
    if (one_in(d, 4)) {
        memcpy(common.packet, sent, 188);
        return make_again(d, common.packet);
    }
    size_t size = make_packet(d, &common.sender, common.packet);
    if (one_in(d, 40))
        size = make_packet(d, &common.sender, common.packet);
    memcpy(sent, common.packet, 188);
    return size;
}

static void later_met(lohitunga_collect_answer m, unsigned last)
{
    const uint8_t *k = common.packet;
    const char *name = "packets behind it";
    if (m.number)
        met_number(name, m.number);
    else if (m.repeated)
        met_word(name, "repeated", 1);
    else if (!(k[3] & 0x10))
        met_word(name, has_bit(k) ? "bare-with-the-bit" : "bare", 1);
    else
        met_word(name, k[3] % 16u != (last + 1) % 16 ? "counter-breaks" : k[1] & 0x40 ? "start" : "no-start", 1);
    if (m.size > 0)
        met_word("handed out behind it", "something", 1);
}

/* "now and for all packets that follow alike": the answer, what is handed out, and all that is kept. */
static void one_later(struct dice *d, uint8_t *sent)
{
    size_t size = make_later(d, sent), rooms_before[2] = {both[0].out_size, both[1].out_size};
    uint32_t rejected = both[0].record->rejected;
    unsigned last = both[0].record->last;
    lohitunga_collect_answer m[2];
    if (one_in(d, 40))
        for (int i = 0; i < 2; i++)
            both[i].out_size = one_in(d, 2) ? LOHITUNGA_OUT - 1 : below(d, LOHITUNGA_OUT);
    both_take(d, size, m);
    for (int i = 0; i < 2; i++)
        both[i].out_size = rooms_before[i];
    long long one[] = {m[0].number, m[0].repeated, (long long)m[0].sections, (long long)m[0].size};
    long long other[] = {m[1].number, m[1].repeated, (long long)m[1].sections, (long long)m[1].size};
    alike("number repeated sections size", one, other, COUNT(one));
    alike_bytes("what is delivered", both[0].out, both[1].out, m[0].size);
    same_state();
    same_growth();
    since.healed |= both[0].record->rejected != rejected;
    same_number();
    later_met(m[0], last);
}

/* A sender whose sections are all accepted, as far as they go: then no number is kept anew. */
static void make_quiet(struct dice *d)
{
    static struct section s;
    common.sender.trouble = 0;
    while (common.sender.size < LATER * 184) {
        make_section_of_size(d, &s, between(d, 32, 700));
        waits(s.bytes, s.size, 1);
    }
}

static void one_pair(struct dice *d)
{
    uint8_t sent[188];
    make_sender(d, &common.sender);
    common.sender.large = one_in(d, 16);
    int by_sender = make_stream(d, one_in(d, 2));
    if (!by_sender)
        make_start(d);
    if (one_in(d, 12))
        make_quiet(d);
    for (int i = 0; i < 2; i++)
        lend_all(d, &both[i]);
    for (int i = 0; i < 2; i++)
        make_past(d, &both[i], by_sender);
    choose_counter(d);
    if (one_in(d, 8))
        tried_without_flag();
    memcpy(sent, common.packet, 188);
    the_packet(d);
    for (int i = 0; i < LATER; i++)
        one_later(d, sent);
    if (since.differed)
        met_word("number that differs", since.healed ? "heals" : "never-heals", 1);
    met_word("counters", "ran-round", since.ran_round);
    for (int i = 0; i < 2; i++)
        all_back(&both[i]);
}

const struct kind kind_fades = {"fades", 1, prepare_fades, fill_garbage, one_pair};
