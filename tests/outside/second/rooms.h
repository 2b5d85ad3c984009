/*
 * Rooms against guard pages. A room's pages have a page on either side that nobody may touch, and no byte of a room that is
 * lent for reading can be written. What of the pages is not lent holds canaries.
 */
#ifndef ROOMS_H
#define ROOMS_H

#include <stddef.h>
#include <stdint.h>

/* Where the lent bytes stand: the last of the pages, the first of them, or at an odd place between canaries. */
enum placing { AT_END, AT_START, ODD_PLACE, PLACINGS };

extern const char *const placing_names[PLACINGS];

struct room {
    uint8_t *ours;    /* the pages as we see them: always writable */
    uint8_t *pages;   /* the same pages as they are lent */
    size_t capacity;
    size_t at, size;  /* what is lent now */
};

void room_make(struct room *room, size_t capacity, int for_writing);

/* Lends `size` bytes with these contents. With `align` above 1 even the odd place is a multiple of it. */
uint8_t *room_lend(struct room *room, const void *bytes, size_t size, enum placing placing, size_t align);

/* What the lent bytes hold now. */
const uint8_t *room_now(const struct room *room);

/* Takes the bytes back; whether the canaries beside them stand. */
int room_back(struct room *room);

/* Whether every canary of the room stands. */
int room_whole(const struct room *room);

/* Whether the address lies in a guard page of the room. */
int room_guards(const struct room *room, const void *address);

#endif
