/* The writer, one call for all sections of a stream, beside biTStream's and beside no more than a copy of each payload. The sections of the whole stream
   come from memory and its packets go there; those of a short one stay in the processor's caches and show what the code costs by itself. */
#include "ways.h"
#include <string.h>

static const struct way ways[] = {
    {"writer", ours_packets},
    {"biTStream, memcpy called", bitstream_packets},
    {"a copy of each payload", copied},
    {"a copy of each payload, by a call", copied_by_call},
};

int main(int argc, char **argv) {
    int times = times_of(argc, argv, 31);
    for (int k = 0; k < 4; k++) {
        int part = k % 2 ? 256 : 1;
        struct stream t = k < 2 ? eit_stream(part) : nit_stream(part);
        cut(&t);
        ours_packets(&t);
        if (memcmp(list.room, t.packets, t.count * PACKET)) return printf("the packets are not those of the stream\n"), 1;
        if (rounds(&t, ways, 4, times, 0)) return 1;
        drop();
        drop_stream(&t);
    }
    return 0;
}
