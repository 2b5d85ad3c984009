/* EIT sections of so many entries, to be turned. */
#ifndef SECTIONS_H
#define SECTIONS_H
#include "../rounds.h"
#include "lohitunga.h"
#include <string.h>

enum { SHEET = LOHITUNGA_SHEET_ROOM, SECTION = 4096 };

/* A section of so many entries; each has a descriptor of `body` bytes, or none where it is negative. It tells the section's size. */
static inline size_t make(uint8_t *s, size_t entries, int body) {
    size_t loop = body < 0 ? 0 : 2 + (size_t)body, size = 14 + entries * (12 + loop) + 4, at = 14;
    memset(s, 0, size);
    s[0] = 0x50;
    s[1] = 0xF0 | (uint8_t)((size - 3) >> 8);
    s[2] = (uint8_t)(size - 3);
    s[5] = 0xC1;
    for (size_t e = 0; e < entries; e++) {
        at += 12 + loop;
        s[at - loop - 2] = (uint8_t)(loop >> 8);
        s[at - loop - 1] = (uint8_t)loop;
        if (loop) s[at - loop] = 0x4D, s[at - loop + 1] = (uint8_t)body;
    }
    seal(s, size);
    return size;
}

#endif
