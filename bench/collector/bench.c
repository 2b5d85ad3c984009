/* Collecting and judging over the calls for C: in one call, or apart (APART), as it was before the collector judged. It is compiled once each way, with
   the header and the archive of its own commit, for both have the same names.
       bench ROUNDS            a line for each stream: its name, and nanoseconds a packet, the median of the rounds
       bench EIT|NIT TIMES     a short stream, gone over so often, to be counted: its packets
   The whole stream comes from memory; a short one stays in the processor's caches and shows what the code costs by itself.
   With WAY, a name, it is one of the two ways of places.c, under that name. */
#include "../rounds.h"
#include "lohitunga.h"

#ifdef WAY
#define run WAY
struct found run(const struct stream *);
#else
static
#endif
struct found run(const struct stream *t) {
    static uint8_t hold[LOHITUNGA_HOLD], out[LOHITUNGA_OUT];
    lohitunga_record record = lohitunga_fresh(t->pid);
    struct found f = {0};
    for (size_t i = 0; i < t->count; i++) {
        lohitunga_collect_answer a = lohitunga_collect(&record, hold, sizeof hold, out, sizeof out, t->packets + i * PACKET, PACKET);
        f.sections += a.sections;
        f.bytes += a.size;
#ifdef APART
        for (size_t at = 0; at < a.size;) {
            size_t size = 3 + (out[at + 1] % 16 * 256u + out[at + 2]);
            f.accepted += lohitunga_judge(out + at, size).number == 0;
            at += size;
        }
#else
        f.accepted += a.sections;
#endif
    }
    return f;
}

#ifndef WAY
static int time_stream(const char *name, struct stream t, int times) {
    static double took[MOST_ROUNDS];
    int again = 1 + (int)(50000 / t.count);
    struct found f = run(&t);
    if (f.sections != t.sections || f.bytes != t.section_bytes || f.accepted != t.sections)
        return fprintf(stderr, "%s: found %zu sections of %zu bytes, %zu accepted\n", name, f.sections, f.bytes, f.accepted), 1;
    for (int r = 0; r < times; r++) {
        double start = now();
        for (int k = 0; k < again; k++) run(&t);
        took[r] = (now() - start) / (double)t.count / again;
    }
    qsort(took, (size_t)times, sizeof *took, order);
    printf("%s %.2f\n", name, took[times / 2]);
    drop_stream(&t);
    return 0;
}

int main(int argc, char **argv) {
    if (argc == 3) {
        struct stream t = *argv[1] == 'E' ? eit_stream(64) : nit_stream(64);
        for (int k = atoi(argv[2]); k > 0; k--)
            if (run(&t).accepted != t.sections) return 1;
        return printf("%zu\n", t.count) < 0;
    }
    int times = times_of(argc, argv, 9);
    return time_stream("EIT", eit_stream(1), times) || time_stream("EIT-short", eit_stream(256), times) ||
           time_stream("NIT", nit_stream(1), times) || time_stream("NIT-short", nit_stream(256), times);
}
#endif
