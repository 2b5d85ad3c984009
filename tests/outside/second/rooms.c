#define _GNU_SOURCE
#include "rooms.h"

#include <stdio.h>
#include <stdlib.h>
#include <string.h>
#include <sys/mman.h>
#include <unistd.h>

enum { PAGE = 4096, CANARY = 0xA5, BESIDE = 128 };

const char *const placing_names[PLACINGS] = {"at the end of its pages", "at the start of its pages", "at an odd place"};

static void give_up(const char *what)
{
    perror(what);
    exit(2);
}

void room_make(struct room *room, size_t capacity, int for_writing)
{
    capacity = (capacity + PAGE - 1) / PAGE * PAGE;
    int file = memfd_create("room", 0);
    if (file < 0 || ftruncate(file, (off_t)capacity) != 0)
        give_up("memfd_create");
    room->ours = mmap(NULL, capacity, PROT_READ | PROT_WRITE, MAP_SHARED, file, 0);
    uint8_t *all = mmap(NULL, capacity + 2 * PAGE, PROT_NONE, MAP_PRIVATE | MAP_ANONYMOUS, -1, 0);
    if (room->ours == MAP_FAILED || all == MAP_FAILED)
        give_up("mmap");
    int may = PROT_READ | (for_writing ? PROT_WRITE : 0);
    room->pages = mmap(all + PAGE, capacity, may, MAP_SHARED | MAP_FIXED, file, 0);
    if (room->pages != all + PAGE)
        give_up("mmap");
    close(file);
    room->capacity = capacity;
    room->at = 0;
    room->size = 0;
    memset(room->ours, CANARY, capacity);
}

static size_t place(const struct room *room, size_t size, enum placing placing, size_t align)
{
    size_t slack = room->capacity - size;
    switch (placing) {
    case AT_END: return slack;
    case AT_START: return 0;
    default: return align > 1 ? slack / 2 / align * align : slack == 0 ? 0 : slack / 2 | 1;
    }
}

uint8_t *room_lend(struct room *room, const void *bytes, size_t size, enum placing placing, size_t align)
{
    if (size > room->capacity)
        abort();
    room->at = place(room, size, placing, align);
    room->size = size;
    if (size > 0)
        memcpy(room->ours + room->at, bytes, size);
    return room->pages + room->at;
}

const uint8_t *room_now(const struct room *room) { return room->ours + room->at; }

/* The first byte is a canary, and each of the others is like the one before it. */
static int stand(const struct room *room, size_t from, size_t to)
{
    const uint8_t *at = room->ours + from;
    return from == to || (*at == CANARY && memcmp(at, at + 1, to - from - 1) == 0);
}

int room_back(struct room *room)
{
    size_t end = room->at + room->size;
    size_t from = room->at < BESIDE ? 0 : room->at - BESIDE;
    size_t to = room->capacity - end < BESIDE ? room->capacity : end + BESIDE;
    int whole = stand(room, from, room->at) && stand(room, end, to);
    memset(room->ours + room->at, CANARY, room->size);
    room->size = 0;
    return whole;
}

int room_whole(const struct room *room) { return stand(room, 0, room->capacity); }

int room_guards(const struct room *room, const void *address)
{
    const uint8_t *a = address;
    return (a >= room->pages - PAGE && a < room->pages) ||
           (a >= room->pages + room->capacity && a < room->pages + room->capacity + PAGE);
}
