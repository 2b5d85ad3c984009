/* libdvbpsi: a decoder that is handed each section once its CRC holds; it judges nothing further and makes no table. */
#include "ways.h"
#include <stdbool.h>
/* its headers want bool before them */
#include <dvbpsi/dvbpsi.h>
#include <dvbpsi/psi.h>

static struct found f;

static void gathered(dvbpsi_t *handle, dvbpsi_psi_section_t *s) {
    (void)handle;
    f.sections++;
    f.bytes += s->i_length + 3u;
    f.accepted++;
    dvbpsi_DeletePSISections(s);
}

struct found dvbpsi_crc(const struct stream *t) {
    dvbpsi_t *handle = dvbpsi_new(NULL, DVBPSI_MSG_NONE);
    handle->p_decoder = dvbpsi_decoder_new(gathered, 4096, true, sizeof(dvbpsi_decoder_t));
    f = (struct found){0};
    for (size_t i = 0; i < t->count; i++) dvbpsi_packet_push(handle, t->packets + i * PACKET);
    dvbpsi_decoder_delete(handle->p_decoder);
    handle->p_decoder = NULL;
    dvbpsi_delete(handle);
    return f;
}
