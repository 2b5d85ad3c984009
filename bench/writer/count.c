/* One way over the sections of a short stream, once, to be counted: count EIT|NIT WAY. It prints the stream's packets. The way `none` makes the stream
   and nothing else: what it takes is taken off the others. */
#include "ways.h"
#include <string.h>

static struct found none(const struct stream *t) { return (struct found){.sections = t->sections}; }

#define WAY(name) {#name, name}
static const struct way ways[] = {WAY(none), WAY(ours_packets), WAY(bitstream_packets), WAY(copied), WAY(copied_by_call)};

int main(int argc, char **argv) {
    if (argc != 3) return 2;
    struct stream t = *argv[1] == 'E' ? eit_stream(64) : nit_stream(64);
    cut(&t);
    for (size_t w = 0; w < sizeof ways / sizeof *ways; w++)
        if (!strcmp(ways[w].name, argv[2]))
            return ways[w].run(&t).sections != t.sections || printf("%zu\n", t.count) < 0;
    return 2;
}
