#include "second.h"
#include "second_shared.h"

#include <string.h>

/* "The collector" */

/*
 * "A fresh one: no counter, nothing in hand, zeros." Document 02: "The record gains a mark." It is clear. "A rejected section's
 * number is kept in the record, the last one only, 0 at first"
 */
struct second_record second_fresh(uint32_t pid)
{
    struct second_record r;
    memset(&r, 0, sizeof r);
    r.pid = pid;
    return r;
}

/* "43: record can't stand" */
static int cannot_stand(const struct second_record *r, const uint8_t *hold)
{
    /* "PID above 8,191; counter above 15; more than 4,095 in hand" */
    if (r->pid > 8191)
        return 1;
    if (r->has_counter && r->counter > 15)
        return 1;
    if (r->in_hand > 4095)
        return 1;
    /* Document 02: "any number but 0 to 10 there is refused with 43" */
    if (r->rejection > 10)
        return 1;
    /* "bytes in hand but no counter; first held byte 0xFF" */
    if (r->in_hand > 0 && !r->has_counter)
        return 1;
    if (r->in_hand > 0 && hold[0] == 0xFF)
        return 1;
    /* "3 or more held whose header declares no more than are held, or over 4,096 in all" */
    if (r->in_hand >= 3) {
        unsigned declared = 3 + twelve(hold + 1);
        if (declared <= r->in_hand || declared > 4096)
            return 1;
    }
    return 0;
}

/* The packet's refusals 44 to 49; its payload is written if there is none. Control 10 has a payload of 0. */
static unsigned refuse_packet(const struct second_record *r, const uint8_t *k, size_t *first)
{
    /* "44: first byte not 0x47" */
    if (k[0] != 0x47)
        return 44;
    /* "45: transport_error_indicator 1" */
    if (k[1] / 128 == 1)
        return 45;
    /* "46: another PID" */
    if (k[1] % 32u * 256u + k[2] != r->pid)
        return 46;
    /* "47: scrambling control not 00" */
    if (k[3] / 64 != 0)
        return 47;
    /* "48: adaptation control 00; or 11 with length above 182; or 10 with length other than 183" */
    unsigned control = k[3] / 16 % 4;
    if (control == 0)
        return 48;
    if (control == 3 && k[4] > 182)
        return 48;
    if (control == 2 && k[4] != 183)
        return 48;
    *first = control == 1 ? 4 : control == 3 ? 5u + k[4] : 188;
    /* "49: control 01 or 11, start flag, and pointer above payload length minus 2 (a payload of 1: always)" */
    if (control != 2 && k[1] / 64 % 2 == 1) {
        size_t payload = 188 - *first;
        if (payload == 1 || k[*first] > payload - 2)
            return 49;
    }
    return 0;
}

/* Document 02: "An adaptation field of at least one byte with that bit set", discontinuity_indicator, its first flag */
static int discontinuity(const uint8_t *k)
{
    /* control 10 and 11 have the field: a byte for its length, then its bytes */
    unsigned control = k[3] / 16 % 4;
    if (control == 0 || control == 1)
        return 0;
    if (k[4] < 1)
        return 0;
    return k[5] / 128 == 1;
}

/* The section in hand while a packet is gone through: its bytes, and where the fate of each stands in the answer. */
struct hand {
    uint8_t bytes[4096];
    size_t at[4096];
    size_t size;
    int open;
};

static void settle(struct second_collected *a, struct hand *h, uint8_t fate)
{
    for (size_t i = 0; i < h->size; i++)
        a->fate[h->at[i]] = fate;
    h->size = 0;
    h->open = 0;
}

enum after { GOES_ON, HAS_ENDED, TOO_LONG };

/* One byte to the section in hand; `at` is the place of its fate. */
static enum after add(struct second_collected *a, struct hand *h, uint8_t byte, size_t at, uint8_t *out)
{
    h->bytes[h->size] = byte;
    h->at[h->size] = at;
    h->size++;
    a->fate[at] = SECOND_IN_HAND;
    /* "known at its third byte" */
    if (h->size < 3)
        return GOES_ON;
    unsigned length = twelve(h->bytes + 1);
    /* "A section_length above 4,093 .. the section and the rest of its stretch .. are broken off." */
    if (length > 4093) {
        settle(a, h, SECOND_BROKEN);
        return TOO_LONG;
    }
    if (h->size < 3 + length)
        return GOES_ON;
    unsigned number = second_judge(h->bytes, h->size).number;
    a->whole[a->wholes++] = (struct second_whole){h->at[0], a->whole_bytes, h->size, number};
    memcpy(a->came + a->whole_bytes, h->bytes, h->size);
    a->whole_bytes += h->size;
    /* Document 02: "a taken packet gives out only accepted sections. The delivered counter splits into accepted and rejected" */
    if (number) {
        settle(a, h, SECOND_REJECTED);
        return HAS_ENDED;
    }
    /* "Out gets the finished sections end to end, the answer their number and bytes." */
    for (size_t i = 0; i < h->size; i++)
        out[a->bytes + i] = h->bytes[i];
    a->bytes += (unsigned)h->size;
    a->sections++;
    settle(a, h, SECOND_ACCEPTED);
    return HAS_ENDED;
}

/*
 * "No start flag: bytes go to the section in hand; after its end, filler. Nothing in hand: skipped." The stretch before
 * the pointer's target goes the same way: "The next p bytes go as above".
 */
static void go_on(struct second_collected *a, struct hand *h, const uint8_t *bytes, size_t size, size_t at, uint8_t *out)
{
    int fate = h->open ? SECOND_IN_HAND : SECOND_SKIPPED;
    for (size_t i = 0; i < size; i++) {
        if (fate != SECOND_IN_HAND) {
            a->fate[at + i] = (uint8_t)fate;
            continue;
        }
        switch (add(a, h, bytes[i], at + i, out)) {
        case GOES_ON: break;
        case HAS_ENDED: fate = SECOND_FILLER; break;
        case TOO_LONG: fate = SECOND_BROKEN; break;
        }
    }
}

/* "Then sections follow end to end until 0xFF stands where one would begin (the rest is filler) or the payload ends" */
static void begin(struct second_collected *a, struct hand *h, const uint8_t *bytes, size_t size, size_t at, uint8_t *out)
{
    int fate = SECOND_IN_HAND;
    for (size_t i = 0; i < size; i++) {
        if (fate == SECOND_IN_HAND && !h->open) {
            if (bytes[i] == 0xFF)
                fate = SECOND_FILLER;
            else
                h->open = 1;
        }
        if (fate != SECOND_IN_HAND)
            a->fate[at + i] = (uint8_t)fate;
        else if (add(a, h, bytes[i], at + i, out) == TOO_LONG)
            fate = SECOND_BROKEN;
    }
}

void second_collect(struct second_collected *a, struct second_record *r, uint8_t *hold, size_t hold_size,
                    uint8_t *out, size_t out_size, const uint8_t *k, size_t packet_size)
{
    size_t first = 0;
    struct hand h;
    memset(a, 0, offsetof(struct second_collected, whole));
    a->kind = SECOND_TAKEN;
    /* "41: packet not 188 bytes"; "42: hold under 4,096 or out under 4,280" */
    if (packet_size != 188)
        a->number = 41;
    else if (hold_size < 4096 || out_size < 4280)
        a->number = 42;
    else if (cannot_stand(r, hold))
        a->number = 43;
    else
        a->number = refuse_packet(r, k, &first);
    if (a->number)
        return;

    a->before = (size_t)r->in_hand;
    for (size_t i = 0; i < a->before; i++)
        a->fate[i] = SECOND_IN_HAND;
    /* Document 02: "An adaptation field .. with that bit set, in a packet not refused, sets it" */
    if (discontinuity(k))
        r->mark = 1;
    /* "Control 10: taken, no payload, nothing changes.", amended by document 02: but for the mark */
    if (first == 188)
        return;
    /* Document 02: "the next packet with payload, the marked one itself if it has any, .. clears it" */
    int marked = r->mark;
    r->mark = 0;
    /* "Else a counter equal to the last: "repeated", nothing changes.", amended by document 02: a marked one never */
    unsigned counter = k[3] % 16;
    if (!marked && r->has_counter && counter == r->counter) {
        a->kind = SECOND_REPEATED;
        return;
    }
    /* "Else taken." */
    a->payload = 188 - first;
    h.size = a->before;
    h.open = a->before > 0;
    for (size_t i = 0; i < h.size; i++) {
        h.bytes[i] = hold[i];
        h.at[i] = i;
    }
    /*
     * "If the counter isn't the last plus 1 modulo 16, what is in hand is broken off; the counter then becomes the last."
     * Document 02: behind a mark the packet "breaks off what is in hand", whatever its counter
     */
    if (marked || (r->has_counter && counter != (r->counter + 1) % 16))
        settle(a, &h, SECOND_BROKEN);
    r->has_counter = 1;
    r->counter = counter;

    const uint8_t *payload = k + first;
    if (k[1] / 64 % 2 == 0) {
        go_on(a, &h, payload, a->payload, a->before, out);
    } else {
        /* "Start flag: one pointer byte p." */
        size_t p = payload[0];
        a->fate[a->before] = SECOND_POINTER;
        go_on(a, &h, payload + 1, p, a->before + 1, out);
        /* "a section still unfinished after them is broken off" */
        settle(a, &h, SECOND_BROKEN);
        begin(a, &h, payload + 1 + p, a->payload - 1 - p, a->before + 1 + p, out);
    }

    /* Document 02: "A rejected section's number is kept in the record, the last one only" */
    for (size_t i = 0; i < a->wholes; i++)
        if (a->whole[i].number)
            r->rejection = a->whole[i].number;
    /* "five 32-bit counters that run round past 4,294,967,295 to 0", by document 02 six */
    for (size_t i = 0; i < a->before + a->payload; i++)
        if (a->fate[i] != SECOND_IN_HAND)
            r->counters[a->fate[i]]++;
    /* "Hold begins with the bytes in hand. Bytes of either beyond that stay." */
    for (size_t i = 0; i < h.size; i++)
        hold[i] = h.bytes[i];
    r->in_hand = h.size;
}
