#include "second.h"
#include "second_shared.h"

/* Document 02, request (ii), "Our own packets" */

/* "102: a section whose length is not its header's, is over 4,096, or begins 0xFF" */
static int cannot_be_sent(const uint8_t *section, uint64_t size)
{
    /* docs/DECISIONS.md: fewer than 3 bytes have no header */
    if (size < 3)
        return 1;
    if (size != 3 + twelve(section + 1))
        return 1;
    if (size > 4096)
        return 1;
    return section[0] == 0xFF;
}

/* The same of all; and the sections are these bytes and no others. */
static int some_cannot_be_sent(const uint8_t *bytes, uint64_t size, const size_t *sizes, size_t count)
{
    for (size_t i = 0; i < count; i++) {
        if (sizes[i] > size || cannot_be_sent(bytes, sizes[i]))
            return 1;
        bytes += sizes[i];
        size -= sizes[i];
    }
    return size != 0;
}

/* What is still to be sent: the next byte, how many there are, and how many of them are left of the section begun. */
struct queue {
    const uint8_t *next;
    size_t size, begun;
    const size_t *waiting;
};

static int section_begins(const struct queue *q) { return q->size > 0 && q->begun == 0; }

static uint8_t take(struct queue *q)
{
    if (section_begins(q))
        q->begun = *q->waiting++;
    q->begun--;
    q->size--;
    return *q->next++;
}

/*
 * How many bytes come before one with which a section begins: 183 where none of the first 183 does. So many, and no more, have
 * room in a packet with pointer.
 */
static unsigned before_a_beginning(struct queue q)
{
    unsigned bytes = 0;
    for (; bytes < 183 && q.size > 0; bytes++) {
        if (section_begins(&q))
            return bytes;
        take(&q);
    }
    return 183;
}

/* "188-byte packets out, without adaptation fields" */
static void put_packet(struct queue *q, unsigned pid, unsigned counter, uint8_t *packet)
{
    unsigned pointer = before_a_beginning(*q), at = 0;
    /* "The start flag stands only where a section begins" */
    int start = pointer < 183;
    packet[at++] = 0x47;
    packet[at++] = (uint8_t)(start * 64 + pid / 256);
    packet[at++] = (uint8_t)(pid % 256);
    packet[at++] = (uint8_t)(16 + counter);
    if (start)
        packet[at++] = (uint8_t)pointer;
    while (at < 188) {
        /*
         * "a filler byte only where no section waits, or where the one byte left would be needed by the pointer": without the
         * flag no section begins here, and it would begin at the last place or at none
         */
        if (q->size == 0 || (!start && section_begins(q)))
            packet[at++] = 0xFF;
        else
            packet[at++] = take(q);
    }
}

struct second_packets second_packets(unsigned pid, unsigned counter, const uint8_t *sections, size_t size, const size_t *sizes,
                                     size_t count, uint8_t *room, size_t room_size)
{
    struct second_packets a = {0, 0};
    struct queue all = {sections, size, 0, sizes}, q = all;
    uint8_t packet[188];
    /* "Refusals: 101 PID above 8,191 or counter above 15" */
    if (pid > 8191 || counter > 15)
        a.number = 101;
    else if (some_cannot_be_sent(sections, size, sizes, count))
        a.number = 102;
    if (a.number)
        return a;
    while (q.size > 0) {
        put_packet(&q, pid, 0, packet);
        a.packets++;
    }
    /* "103 room too small; in that order" */
    if (room_size / 188 < a.packets) {
        a.number = 103;
        a.packets = 0;
        return a;
    }
    /* "sections, PID and first counter in": from that one on each packet has the next */
    for (size_t i = 0; i < a.packets; i++)
        put_packet(&all, pid, (unsigned)((counter + i) % 16), room + 188 * i);
    return a;
}
