/* One way over a short stream, once, to be counted: count EIT|NIT WAY. It prints the stream's packets. The way `none`
   makes the stream and nothing else: what it takes is taken off the others. Where programs are emulated (HEADERS) there
   are only the peers that are headers. */
#include "ways.h"
#include <string.h>

static struct found none(const struct stream *t) { return (struct found){.sections = t->sections}; }

#define WAY(name) {#name, name}
static const struct way ways[] = {
    WAY(none), WAY(ours_judge),
    WAY(bitstream_called_collect), WAY(bitstream_called_crc), WAY(bitstream_called_validate),
#ifndef HEADERS
    WAY(ucsi_collect), WAY(ucsi_crc), WAY(ucsi_codec), WAY(dvbpsi_crc), WAY(avformat_crc),
#endif
};

int main(int argc, char **argv) {
    if (argc != 3) return 2;
    struct stream t = *argv[1] == 'E' ? eit_stream(64) : nit_stream(64);
    for (size_t w = 0; w < sizeof ways / sizeof *ways; w++)
        if (!strcmp(ways[w].name, argv[2]))
            return ways[w].run(&t).sections != t.sections || printf("%zu\n", t.count) < 0;
    return 2;
}
