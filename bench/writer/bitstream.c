/* biTStream: psi_split_section, called as in its example dvb_gen_si.c, but that what a section leaves of a packet is the next one's. It writes into the
   room. Where one byte is left it fills, also in a packet that has its pointer: its packets are not all the same ones, and a few more. */
#include "ways.h"
#include <bitstream/mpeg/psi.h>
#include <bitstream/mpeg/ts.h>

struct found bitstream_packets(const struct stream *t) {
    const uint8_t *section = list.sections;
    uint8_t *ts = list.room, offset = 0, cc = 0;
    struct found f = {0};
    for (size_t i = 0; i < list.count; i++) {
        uint16_t length = psi_get_length(section) + PSI_HEADER_SIZE, sent = 0;
        while (sent < length) {
            psi_split_section(ts, &offset, section, &sent);
            if (sent == length && i + 1 == list.count) psi_split_end(ts, &offset);
            if (offset < TS_SIZE) continue;
            ts_set_pid(ts, t->pid);
            ts_set_cc(ts, cc);
            cc = (cc + 1) & 0xf;
            ts += TS_SIZE;
            offset = 0;
        }
        f.sections++;
        f.bytes += length;
        section += length;
    }
    return f;
}
