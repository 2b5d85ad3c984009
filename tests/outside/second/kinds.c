#include "kinds.h"
#include "tally.h"

struct rooms rooms;

const uint8_t *lend(const void *bytes, size_t size, enum placing p)
{
    return room_lend(&rooms.input, bytes, size, p, 1);
}

void back(void) { must(room_back(&rooms.input), "the canaries beside the input stand"); }

int has_bit(const uint8_t *packet) { return packet[3] & 0x20 && packet[4] != 0 && packet[5] & 0x80; }

size_t declared_by(const uint8_t *head) { return 3 + (head[1] % 16u * 256u + head[2]); }

uint32_t any_count(struct dice *d)
{
    return one_in(d, 2) ? (uint32_t)dice_any(d) : UINT32_MAX - below(d, 400);
}

uint8_t any_mark(struct dice *d)
{
    static const uint8_t marks[] = {0, 0, 0, 0, 1, 2, 255};
    unsigned i = below(d, COUNT(marks) + 1);
    return i < COUNT(marks) ? marks[i] : (uint8_t)below(d, 256);
}
