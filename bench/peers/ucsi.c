/* libucsi: its section buffer, fed as its section_buf.h says; section_ext_decode checks the CRC, the codecs the tables. */
#include "ways.h"
#include <libucsi/dvb/section.h>
#include <libucsi/section.h>
#include <libucsi/section_buf.h>
#include <libucsi/transport_packet.h>
#include <string.h>

enum work { COLLECT, CRC, CODEC };

static inline void section(struct section_buf *buf, enum work work, struct found *f) {
    f->sections++;
    f->bytes += buf->len;
    if (work == COLLECT) return;
    struct section *s = section_codec(section_buf_data(buf), buf->len);
    struct section_ext *e = s ? section_ext_decode(s, 1) : NULL;
    if (!e) return;
    if (work == CRC)
        f->accepted++;
    else if (e->table_id == 0x40)
        f->accepted += dvb_nit_section_codec(e) != NULL;
    else
        f->accepted += dvb_eit_section_codec(e) != NULL;
}

static inline struct found run(const struct stream *t, enum work work) {
    static uint8_t room[sizeof(struct section_buf) + DVB_MAX_SECTION_BYTES];
    struct section_buf *buf = (struct section_buf *)room;
    struct transport_values values;
    struct found f = {0};
    unsigned char counter = 0;
    section_buf_init(buf, DVB_MAX_SECTION_BYTES);
    for (size_t i = 0; i < t->count; i++) {
        struct transport_packet *p = transport_packet_init(t->packets + i * PACKET);
        if (!p || p->transport_error_indicator || transport_packet_pid(p) != t->pid) continue;
        if (transport_packet_values_extract(p, &values, 0) < 0) continue;
        if (transport_packet_continuity_check(p, values.flags & transport_adaptation_flag_discontinuity, &counter)) {
            counter = 0;
            section_buf_reset(buf);
        }
        uint8_t *payload = values.payload;
        int left = values.payload_length, start = p->payload_unit_start_indicator, status;
        while (left) {
            int used = section_buf_add_transport_payload(buf, payload, left, start, &status);
            start = 0;
            left -= used;
            payload += used;
            if (status == 1) section(buf, work, &f);
            if (status != 0) {
                section_buf_reset(buf);
                if (status < 0) start = 1;
            }
        }
    }
    return f;
}

struct found ucsi_collect(const struct stream *t) { return run(t, COLLECT); }
struct found ucsi_crc(const struct stream *t) { return run(t, CRC); }
struct found ucsi_codec(const struct stream *t) { return run(t, CODEC); }
