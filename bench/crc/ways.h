/* CRC_32 three ways: in C by a table of 256 entries and by slicing by 8, and ours. `fill` makes the tables. */
#ifndef WAYS_H
#define WAYS_H
#include <stddef.h>
#include <stdint.h>

extern uint32_t timed_crc32(const uint8_t *, size_t);

static uint32_t table[8][256];

static void fill(void) {
    for (uint32_t i = 0; i < 256; i++) {
        uint32_t r = i << 24;
        for (int k = 0; k < 8; k++) r = (r << 1) ^ (r >> 31 ? 0x04C11DB7 : 0);
        table[0][i] = r;
    }
    for (int k = 1; k < 8; k++)
        for (int i = 0; i < 256; i++) table[k][i] = (table[k - 1][i] << 8) ^ table[0][table[k - 1][i] >> 24];
}

__attribute__((noinline)) static uint32_t by_table(const uint8_t *s, size_t n) {
    uint32_t r = 0xFFFFFFFF;
    for (size_t i = 0; i < n; i++) r = (r << 8) ^ table[0][(r >> 24) ^ s[i]];
    return r;
}

static uint32_t word(const uint8_t *s) { return (uint32_t)s[0] << 24 | (uint32_t)s[1] << 16 | (uint32_t)s[2] << 8 | s[3]; }

__attribute__((noinline)) static uint32_t by_slices(const uint8_t *s, size_t n) {
    uint32_t r = 0xFFFFFFFF;
    for (; n >= 8; s += 8, n -= 8) {
        uint32_t x = word(s) ^ r, y = word(s + 4);
        r = table[7][x >> 24] ^ table[6][x >> 16 & 255] ^ table[5][x >> 8 & 255] ^ table[4][x & 255] ^ table[3][y >> 24] ^
            table[2][y >> 16 & 255] ^ table[1][y >> 8 & 255] ^ table[0][y & 255];
    }
    for (; n; s++, n--) r = (r << 8) ^ table[0][(r >> 24) ^ *s];
    return r;
}

static const struct {
    const char *name;
    uint32_t (*crc)(const uint8_t *, size_t);
} ways[] = {{"C, table of 256", by_table}, {"C, slicing by 8", by_slices}, {"crc::crc32", timed_crc32}};

enum { WAYS = 3 };

#endif
