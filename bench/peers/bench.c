/* Collect, CRC and judge, ours beside the peers. All are handed the same packets, and all find the same sections. */
#include "ways.h"
#include <string.h>

static const struct way ways[] = {
    {"ours: collect, CRC, judge", ours_judge},
    {"biTStream: collect, CRC, validate", bitstream_validate},
    {"the same, memcpy called", bitstream_called_validate},
    {"libucsi: collect, CRC, codec", ucsi_codec},
    {"biTStream: collect, CRC, memcpy called", bitstream_called_crc},
    {"libucsi: collect, CRC", ucsi_crc},
    {"libdvbpsi: collect, CRC", dvbpsi_crc},
    /* libavformat has no filter for the NIT */
    {"libavformat: collect, CRC", avformat_crc},
    {"libavformat: the same, sections handed out", avformat_each},
};

int main(int argc, char **argv) {
    int times = times_of(argc, argv, 15);
    struct stream eit = eit_stream(1), nit = nit_stream(1);
    return rounds(&eit, ways, 9, times, 1) || rounds(&nit, ways, 7, times, 1);
}
