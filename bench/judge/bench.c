/* The judge alone, on EIT sections of one shape each: how its time grows with the section's size, its entries and its descriptors. */
#include "../ours.h"
#include "../rounds.h"
#include <string.h>

/* A section of so many bytes: entries, of which all but the last have no descriptor, and in the last so many descriptors, the first of which are empty.
   What then is left goes to descriptors of at most 255 bytes. It tells how many descriptors there are. */
static size_t make(uint8_t *s, size_t size, size_t entries, size_t descriptors) {
    size_t at = 14, end = size - 4, n = 0;
    memset(s, 0, size);
    s[0] = 0x50;
    s[1] = 0xF0 | (uint8_t)((size - 3) >> 8);
    s[2] = (uint8_t)(size - 3);
    while (entries--) {
        at += 12;
        size_t loop = entries ? 0 : end - at;
        s[at - 2] = 0xF0 | (uint8_t)(loop >> 8);
        s[at - 1] = (uint8_t)loop;
    }
    while (at < end) {
        size_t body = n + 1 < descriptors ? 0 : end - at - 2;
        if (body > 255) body = end - at - 257 < 2 ? 200 : 255;
        s[at] = 0x4D;
        s[at + 1] = (uint8_t)body;
        at += 2 + body;
        n++;
    }
    seal(s, size);
    return n;
}

enum { ROUNDS = 41 };

static void row(size_t size, size_t entries, size_t descriptors) {
    static uint8_t s[LONGEST];
    static double judge[ROUNDS], crc[ROUNDS];
    size_t made = make(s, size, entries, descriptors), calls = 400000 / size;
    volatile uint32_t sink = 0;
    if (timed_judge(s, size)) printf("refused: %u\n", timed_judge(s, size)), exit(1);
    for (int r = 0; r < ROUNDS; r++) {
        double start = now();
        for (size_t k = 0; k < calls; k++) sink += timed_judge(s, size);
        double between = now();
        for (size_t k = 0; k < calls; k++) sink += timed_crc32(s, size);
        judge[r] = (between - start) / (double)calls;
        crc[r] = (now() - between) / (double)calls;
    }
    qsort(judge, ROUNDS, sizeof(double), order);
    qsort(crc, ROUNDS, sizeof(double), order);
    double j = judge[ROUNDS / 2], c = crc[ROUNDS / 2];
    printf("%8zu %8zu %12zu %10.1f %10.1f %10.1f   %7.1f - %7.1f\n", size, entries, made, j, c, j - c, judge[ROUNDS / 4], judge[ROUNDS - 1 - ROUNDS / 4]);
}

int main(void) {
    static const size_t sizes[] = {18, 32, 64, 128, 256, 512, 1024, 2048, 4096}, entries[] = {1, 4, 16, 64, 128, 256, 339}, descriptors[] = {16, 64, 256, 1024, 2033};
    printf("\n%8s %8s %12s %10s %10s %10s   %s\n", "bytes", "entries", "descriptors", "judge, ns", "CRC", "the rest", "middle half");
    for (size_t i = 0; i < sizeof sizes / sizeof *sizes; i++) row(sizes[i], sizes[i] > 30, 0);
    puts("");
    for (size_t i = 0; i < sizeof entries / sizeof *entries; i++) row(4096, entries[i], 0);
    puts("");
    for (size_t i = 0; i < sizeof descriptors / sizeof *descriptors; i++) row(4096, 1, descriptors[i]);
    return 0;
}
