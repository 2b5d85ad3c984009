#include "ways.h"
#include "../ours.h"
#include <string.h>

struct list list;

static void *room_for(size_t n) {
    void *room = malloc(n);
    if (!room) perror("writer"), exit(1);
    /* no page is met for the first time while it is timed */
    return memset(room, 1, n);
}

/* The packets carry sections end to end; what stands behind one where none follows is filler. */
void cut(const struct stream *t) {
    size_t at = 0, size = 3;
    uint8_t *s = list.sections = room_for(t->section_bytes);
    list.sizes = room_for(t->sections * sizeof *list.sizes);
    list.size = t->section_bytes;
    list.count = 0;
    for (size_t i = 0; i < t->count; i++) {
        const uint8_t *packet = t->packets + i * PACKET;
        int start = packet[1] >> 6 & 1;
        for (int k = 4 + start; k < PACKET; k++) {
            if (!at && (!start || packet[k] == 0xFF)) break;
            s[at++] = packet[k];
            if (at == 3) size = 3 + (s[1] % 16 * 256u + s[2]);
            if (at < size) continue;
            list.sizes[list.count++] = size;
            s += size;
            at = 0;
            size = 3;
        }
    }
    if (s != list.sections + list.size || list.count != t->sections) printf("the sections are not found in the stream\n"), exit(1);
    /* biTStream begins no section with a last byte, so that it may take a packet more for each */
    list.room_size = (t->count + t->sections) * PACKET;
    list.room = room_for(list.room_size);
}

void drop(void) {
    free(list.sections);
    free(list.sizes);
    free(list.room);
}

struct found ours_packets(const struct stream *t) {
    uint64_t packets = timed_packets(t->pid, 0, list.sections, list.size, list.sizes, list.count, list.room, list.room_size);
    return packets == t->count ? (struct found){.sections = list.count, .bytes = list.size} : (struct found){0};
}

/* The bytes of each payload, and four before them: a room that is left with gaps is slower to write than one without. */
static inline struct found copies(const struct stream *t, void *(*copy)(void *, const void *, size_t)) {
    const uint8_t *s = list.sections;
    uint8_t *to = list.room;
    for (size_t left = list.size; left >= 184; left -= 184, s += 184, to += PACKET) {
        memcpy(to, "\x47\x40\x12\x10", 4);
        copy(to + 4, s, 184);
        __asm__ volatile("" : : "r"(to) : "memory");
    }
    return (struct found){.sections = t->sections, .bytes = t->section_bytes};
}

static inline void *here(void *to, const void *from, size_t n) { return memcpy(to, from, n); }
static void *(*volatile there)(void *, const void *, size_t) = memcpy;

struct found copied(const struct stream *t) { return copies(t, here); }
struct found copied_by_call(const struct stream *t) { return copies(t, there); }
