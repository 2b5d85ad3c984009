/* Collecting and judging apart and in one call, both in one program, which takes turns at every round: a line for each stream, its name and the median of
   the rounds' quotients.
       places ROUNDS */
#include "../rounds.h"

struct found apart(const struct stream *), merged(const struct stream *);

static double took(struct found (*run)(const struct stream *), const struct stream *t, int again) {
    double start = now();
    for (int k = 0; k < again; k++) run(t);
    return now() - start;
}

static int beside(const char *name, struct stream t, int times) {
    static double quotients[MOST_ROUNDS];
    int again = 1 + (int)(50000 / t.count);
    if (apart(&t).accepted != t.sections || merged(&t).accepted != t.sections) return fprintf(stderr, "%s: not all sections accepted\n", name), 1;
    for (int r = 0; r < times; r++) {
        double first = took(apart, &t, again);
        quotients[r] = took(merged, &t, again) / first;
    }
    qsort(quotients, (size_t)times, sizeof *quotients, order);
    printf("%s %.3f\n", name, quotients[times / 2]);
    drop_stream(&t);
    return 0;
}

int main(int argc, char **argv) {
    int times = times_of(argc, argv, 9);
    return beside("EIT", eit_stream(1), times) || beside("EIT-short", eit_stream(256), times) || beside("NIT", nit_stream(1), times) ||
           beside("NIT-short", nit_stream(256), times);
}
