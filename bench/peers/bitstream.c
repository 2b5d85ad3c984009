/* biTStream: the loop of its example dvb_print_si.c over one PID. eit_validate checks the CRC itself, nit_validate does not. It is compiled twice: as it
   comes, gcc -O2 copies by `rep movsq`, which costs some 30 ns a copy; told to call memcpy (CALLED) it is the quicker. */
#include "ways.h"
#include <bitstream/dvb/si.h>
#include <bitstream/mpeg/psi.h>
#include <bitstream/mpeg/ts.h>

enum work { COLLECT, CRC, VALIDATE };

static inline void section(uint8_t *s, enum work work, struct found *f) {
    f->sections++;
    f->bytes += psi_get_length(s) + PSI_HEADER_SIZE;
    if (work == CRC)
        f->accepted += psi_check_crc(s);
    else if (work == VALIDATE) {
        if (psi_get_tableid(s) == NIT_TABLE_ID_ACTUAL)
            f->accepted += psi_validate(s) && psi_check_crc(s) && nit_validate(s);
        else
            f->accepted += psi_validate(s) && eit_validate(s);
    }
    free(s);
}

static inline struct found run(const struct stream *t, enum work work) {
    uint8_t *buffer;
    uint16_t used;
    int last = -1;
    struct found f = {0};
    psi_assemble_init(&buffer, &used);
    for (size_t i = 0; i < t->count; i++) {
        uint8_t *ts = t->packets + i * PACKET;
        const uint8_t *payload;
        uint8_t length, *s;
        if (!ts_validate(ts) || ts_get_transporterror(ts) || ts_get_pid(ts) != t->pid) continue;
        uint8_t cc = ts_get_cc(ts);
        if (!ts_has_payload(ts) || (last != -1 && ts_check_duplicate(cc, (uint8_t)last))) continue;
        if (last != -1 && ts_check_discontinuity(cc, (uint8_t)last)) psi_assemble_reset(&buffer, &used);
        last = cc;
        payload = ts_section(ts);
        length = (uint8_t)(ts + TS_SIZE - payload);
        if (!psi_assemble_empty(&buffer, &used)) {
            s = psi_assemble_payload(&buffer, &used, &payload, &length);
            if (s) section(s, work, &f);
        }
        payload = ts_next_section(ts);
        length = (uint8_t)(ts + TS_SIZE - payload);
        while (length) {
            s = psi_assemble_payload(&buffer, &used, &payload, &length);
            if (s) section(s, work, &f);
        }
    }
    psi_assemble_reset(&buffer, &used);
    return f;
}

#ifdef CALLED
#define NAMED(work) bitstream_called_##work
#else
#define NAMED(work) bitstream_##work
#endif

struct found NAMED(collect)(const struct stream *t) { return run(t, COLLECT); }
struct found NAMED(crc)(const struct stream *t) { return run(t, CRC); }
struct found NAMED(validate)(const struct stream *t) { return run(t, VALIDATE); }
