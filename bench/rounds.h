/* Ways to do one thing to a stream, timed in rounds that take turns, so that what else the machine does falls on all of them alike. */
#ifndef ROUNDS_H
#define ROUNDS_H
#include "streams/streams.h"
#include <stdio.h>
#include <stdlib.h>
#include <time.h>

/* What a way found: all must find the same. */
struct found {
    size_t sections, bytes, accepted;
};

struct way {
    const char *name;
    struct found (*run)(const struct stream *);
};

enum { MOST_WAYS = 16, MOST_ROUNDS = 401 };

/* Processor time: what others run on the same processor does not count, though they take some of its caches and of the memory's speed. */
static inline double now(void) {
    struct timespec t;
    clock_gettime(CLOCK_PROCESS_CPUTIME_ID, &t);
    return (double)t.tv_sec * 1e9 + (double)t.tv_nsec;
}

static inline int order(const void *a, const void *b) { return (*(const double *)a > *(const double *)b) - (*(const double *)a < *(const double *)b); }

/* Nanoseconds a packet of each way over the stream: the median of the rounds, the least, and between which two the middle half lies; and the medians
   beside the first way's. A short stream is gone over several times in a round. */
static inline int rounds(const struct stream *t, const struct way *ways, int number, int times, int judged) {
    static double took[MOST_WAYS][MOST_ROUNDS];
    int again = 1 + (int)(50000 / t->count);
    printf("\n%s, %zu packets, %d rounds: ns a packet\n", t->name, t->count, times);
    for (int w = 0; w < number; w++) {
        struct found f = ways[w].run(t);
        if (f.sections != t->sections || f.bytes != t->section_bytes || f.accepted != (judged ? t->sections : 0))
            return printf("%s found %zu sections of %zu bytes, %zu accepted\n", ways[w].name, f.sections, f.bytes, f.accepted), 1;
    }
    for (int r = 0; r < times; r++)
        for (int w = 0; w < number; w++) {
            double start = now();
            for (int k = 0; k < again; k++) ways[w].run(t);
            took[w][r] = (now() - start) / (double)t->count / again;
        }
    printf("  %-42s %8s %8s   %-15s %8s %8s\n", "", "median", "least", "middle half", "Mpkt/s", "times");
    for (int w = 0; w < number; w++) qsort(took[w], (size_t)times, sizeof(double), order);
    for (int w = 0; w < number; w++) {
        double *d = took[w], m = d[times / 2];
        printf("  %-42s %8.1f %8.1f   %6.1f - %6.1f %8.2f %8.2f\n", ways[w].name, m, d[0], d[times / 4], d[times - 1 - times / 4], 1e3 / m, m / took[0][times / 2]);
    }
    return 0;
}

/* The number of rounds that a run asks for. */
static inline int times_of(int argc, char **argv, int usual) {
    int times = argc > 1 ? atoi(argv[1]) : usual;
    if (times < 1 || times > MOST_ROUNDS) fprintf(stderr, "from 1 to %d rounds\n", MOST_ROUNDS), exit(2);
    return times;
}

#endif
