#include "streams.h"
#include <stdio.h>
#include <stdlib.h>
#include <string.h>

static uint64_t seed;

/* A number from low to high, by xorshift. */
static unsigned some(unsigned low, unsigned high) {
    seed ^= seed << 13;
    seed ^= seed >> 7;
    seed ^= seed << 17;
    return low + (unsigned)((seed >> 16) % (high - low + 1));
}

static uint32_t table[256];

uint32_t crc_by_table(const uint8_t *s, size_t n) {
    if (!table[1])
        for (uint32_t i = 0; i < 256; i++) {
            uint32_t r = i << 24;
            for (int k = 0; k < 8; k++) r = (r << 1) ^ (r >> 31 ? 0x04C11DB7 : 0);
            table[i] = r;
        }
    uint32_t r = 0xFFFFFFFF;
    for (size_t i = 0; i < n; i++) r = (r << 8) ^ table[(r >> 24) ^ s[i]];
    return r;
}

static void put(uint8_t *s, size_t n, uint32_t v) {
    while (n--) s[n] = (uint8_t)v, v >>= 8;
}

void seal(uint8_t *section, size_t size) { put(section + size - 4, 4, crc_by_table(section, size - 4)); }

/* A tag and how long its body may be. */
struct kind {
    uint8_t tag;
    uint8_t least, most;
};

/* n bytes of descriptors: tags in turn, the last one as long as is left. */
static void descriptors(uint8_t *s, size_t n, const struct kind *kinds, size_t number, struct stream *t) {
    for (size_t k = 0; n; k = (k + 1) % number) {
        size_t body = some(kinds[k].least, kinds[k].most);
        if (n < body + 4) body = n - 2 < 255 ? n - 2 : 200;
        *s++ = kinds[k].tag;
        *s++ = (uint8_t)body;
        for (size_t i = 0; i < body; i++) *s++ = (uint8_t)some(0x20, 0x7E);
        n -= body + 2;
        t->descriptors++;
    }
}

/* n bytes of entries, each with `fixed` bytes that end in its loop's length. */
static void entries(uint8_t *s, size_t n, size_t fixed, unsigned least, unsigned most, const struct kind *kinds, size_t number, struct stream *t) {
    while (n) {
        size_t loop = some(least, most);
        if (n < fixed + loop + fixed + least) loop = n - fixed;
        for (size_t i = 0; i < fixed - 2; i++) s[i] = (uint8_t)some(0, 99);
        put(s + fixed - 2, 2, 0xF000 | (uint32_t)loop);
        descriptors(s + fixed, loop, kinds, number, t);
        s += fixed + loop;
        n -= fixed + loop;
        t->entries++;
    }
}

/* short event, extended event, component, content, parental rating */
static const struct kind of_events[] = {{0x4D, 24, 90}, {0x4E, 60, 240}, {0x50, 6, 20}, {0x54, 2, 4}, {0x55, 4, 8}};
/* service list, satellite delivery system, private data specifier, a private list of channel numbers */
static const struct kind of_streams[] = {{0x41, 9, 60}, {0x43, 11, 11}, {0x5F, 4, 4}, {0x83, 8, 60}};
/* network name, private data specifier */
static const struct kind of_networks[] = {{0x40, 5, 20}, {0x5F, 4, 4}};

static void header(uint8_t *s, uint8_t table_id, size_t size, size_t number) {
    s[0] = table_id;
    put(s + 1, 2, 0xF000 | (uint32_t)(size - 3));
    put(s + 3, 2, (uint32_t)(number >> 8) + 1);
    s[5] = 0xC1 | (uint8_t)(some(0, 31) << 1);
    s[6] = (uint8_t)number;
    s[7] = 255;
}

static void eit(uint8_t *s, size_t size, size_t number, struct stream *t) {
    header(s, 0x50, size, number);
    put(s + 8, 2, 1);
    put(s + 10, 2, 1);
    s[12] = 255;
    s[13] = 0x50;
    entries(s + 14, size - 18, 12, 60, 400, of_events, 5, t);
    seal(s, size);
}

static void nit(uint8_t *s, size_t size, size_t number, struct stream *t) {
    size_t top = some(12, 40);
    header(s, 0x40, size, number);
    put(s + 8, 2, 0xF000 | (uint32_t)top);
    descriptors(s + 10, top, of_networks, 2, t);
    size_t second = size - 4 - 12 - top;
    put(s + 10 + top, 2, 0xF000 | (uint32_t)second);
    entries(s + 12 + top, second, 6, 40, 150, of_streams, 4, t);
    seal(s, size);
}

/* The next packet, of which the payload begins with what is left of a section, and 0xFF where no section follows. */
struct packer {
    struct stream *t;
    uint8_t *packet;
    size_t room; /* payload bytes that are free */
    size_t most; /* packets that there is memory for */
};

static void packet(struct packer *p, size_t left, int follows) {
    struct stream *t = p->t;
    if (t->count == p->most) {
        p->most = p->most * 2 + 1024;
        t->packets = realloc(t->packets, p->most * PACKET);
        if (!t->packets) perror("streams"), exit(1);
    }
    p->packet = t->packets + t->count * PACKET;
    p->packet[0] = 0x47;
    put(p->packet + 1, 2, t->pid);
    p->packet[3] = 0x10 | (t->count++ & 15);
    memset(p->packet + 4, 0xFF, 184);
    p->room = 184;
    if (!left || (left <= 182 && follows)) {
        p->packet[1] |= 0x40;
        p->packet[4] = (uint8_t)left;
        p->room = 183;
    }
}

static void pack(struct packer *p, const uint8_t *s, size_t n, int follows) {
    if (!p->room) packet(p, 0, follows);
    while (n) {
        size_t now = n < p->room ? n : p->room;
        memcpy(p->packet + PACKET - p->room, s, now);
        p->room -= now;
        s += now;
        n -= now;
        if (n) packet(p, n, follows);
    }
    /* where a section leaves one byte in a packet that has no pointer, none can begin there */
    if (!(p->packet[1] & 0x40)) p->room = 0;
}

static struct stream made(const char *name, uint16_t pid, size_t sections, unsigned least, unsigned most, void (*make)(uint8_t *, size_t, size_t, struct stream *)) {
    struct stream t = {.name = name, .pid = pid, .sections = sections};
    struct packer p = {.t = &t};
    static uint8_t s[LONGEST];
    seed = 0x9E3779B97F4A7C15;
    for (size_t i = 0; i < sections; i++) {
        size_t size = some(least, most);
        make(s, size, i, &t);
        t.section_bytes += size;
        pack(&p, s, size, i + 1 < sections);
    }
    return t;
}

struct stream eit_stream(int part) { return made("EIT", EIT_PID, 90000 / part, 200, 4000, eit); }
struct stream nit_stream(int part) { return made("NIT", NIT_PID, 30000 / part, 200, 1000, nit); }

void drop_stream(struct stream *t) {
    free(t->packets);
    t->packets = NULL;
}
