/* CRC_32 three ways, in one process, in rounds that take turns; the median and the least of the rounds. */
#include "ways.h"
#include <stdio.h>
#include <stdlib.h>
#include <time.h>

static const size_t lengths[] = {16, 32, 48, 64, 80, 96, 128, 200, 600, 1024, 4096};
enum { LENGTHS = 11, ROUNDS = 41 };

static double now(void) {
    struct timespec t;
    clock_gettime(CLOCK_PROCESS_CPUTIME_ID, &t);
    return t.tv_sec * 1e9 + t.tv_nsec;
}

static int order(const void *a, const void *b) { return (*(double *)a > *(double *)b) - (*(double *)a < *(double *)b); }

int main(void) {
    static uint8_t bytes[8192];
    static double took[LENGTHS][WAYS][ROUNDS];
    volatile uint32_t sink = 0;
    fill();
    for (size_t i = 0; i < sizeof bytes; i++) bytes[i] = rand() >> 7;
    for (size_t n = 0; n < 5000; n++)
        for (int w = 1; w < WAYS; w++)
            if (ways[w].crc(bytes + n % 61, n) != by_table(bytes + n % 61, n)) return printf("%s differs at %zu bytes\n", ways[w].name, n), 1;
    for (int l = 0; l < LENGTHS; l++)
        for (int r = 0; r < ROUNDS; r++)
            for (int w = 0; w < WAYS; w++) {
                size_t n = lengths[l], calls = 400000 / n;
                double start = now();
                for (size_t k = 0; k < calls; k++) sink += ways[w].crc(bytes + k % 64, n);
                took[l][w][r] = (now() - start) / ((double)calls * n);
            }
    printf("%-18s", "bytes");
    for (int l = 0; l < LENGTHS; l++) printf("%14zu", lengths[l]);
    puts("");
    for (int w = 0; w < WAYS; w++) {
        printf("%-18s", ways[w].name);
        for (int l = 0; l < LENGTHS; l++) {
            qsort(took[l][w], ROUNDS, sizeof(double), order);
            printf("%7.2f (%4.2f)", took[l][w][ROUNDS / 2], took[l][w][0]);
        }
        puts("");
    }
    return 0;
}
