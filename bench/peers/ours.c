#include "../ours.h"
#include "ways.h"

struct found ours_judge(const struct stream *t) {
    static uint8_t hold[4096], out[4280];
    record rec = {t->pid, 16};
    struct found f = {0};
    for (size_t i = 0; i < t->count; i++) {
        uint64_t said = timed_collect(&rec, hold, sizeof hold, out, sizeof out, t->packets + i * PACKET, PACKET);
        if (said >= REPEATED) continue;
        f.sections += said / 65536;
        f.bytes += said % 65536;
    }
    /* what is handed out is accepted */
    f.accepted = f.sections;
    return f;
}
