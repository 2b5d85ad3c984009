#include "second.h"
#include "second_shared.h"

#include <string.h>

/* "CRC_32: polynomial 0x04C11DB7, register preset to ones, high bit first, zero after the whole section" */
uint32_t second_crc(const uint8_t *bytes, size_t size)
{
    uint32_t reg = 0xFFFFFFFFu;
    for (size_t i = 0; i < size; i++) {
        for (int bit = 7; bit >= 0; bit--) {
            uint32_t in = bytes[i] >> bit & 1u;
            uint32_t feedback = (reg >> 31) ^ in;
            reg <<= 1;
            if (feedback)
                reg ^= 0x04C11DB7u;
        }
    }
    return reg;
}

/* A walk over a loop of descriptors */

struct second_step second_walk(const uint8_t *loop, size_t size, uint64_t place)
{
    struct second_step step;
    memset(&step, 0, sizeof step);
    step.place = place;
    step.next = place;
    /* "gives each descriptor in turn, then the end" */
    if (place == size) {
        step.kind = SECOND_END;
        step.place = 0;
        return step;
    }
    /* "where none can be read at its place it gives 9 with that place and stays" */
    if (place > size || size - place < 2 || size - place - 2 < loop[place + 1]) {
        step.number = 9;
        return step;
    }
    step.kind = SECOND_DESCRIPTOR;
    step.tag = loop[place];
    step.at = place;
    step.size = 2u + loop[place + 1];
    step.next = place + step.size;
    step.place = 0;
    return step;
}
