/* libavformat: its mpegts demuxer collects the EIT's PID by itself and checks each section's CRC. It hands a section out as a packet, which costs it a
   copy; of a stream that is discarded it hands out none. */
#include "ways.h"
#include <libavformat/avformat.h>
#include <string.h>

struct source {
    const uint8_t *at;
    size_t left;
};

static int more(void *opaque, uint8_t *room, int n) {
    struct source *s = opaque;
    if (!s->left) return AVERROR_EOF;
    if ((size_t)n > s->left) n = (int)s->left;
    memcpy(room, s->at, (size_t)n);
    s->at += n;
    s->left -= (size_t)n;
    return n;
}

static struct found run(const struct stream *t, enum AVDiscard discard) {
    struct source s = {t->packets, t->count * PACKET};
    AVIOContext *io = avio_alloc_context(av_malloc(32768), 32768, 0, &s, more, NULL, NULL);
    AVFormatContext *c = avformat_alloc_context();
    AVPacket *packet = av_packet_alloc();
    AVDictionary *options = NULL;
    struct found f = {0};
    av_log_set_level(AV_LOG_QUIET);
    c->pb = io;
    /* the search for a header is to take no more than a few packets */
    av_dict_set(&options, "probesize", "1880", 0);
    if (avformat_open_input(&c, NULL, av_find_input_format("mpegts"), &options) < 0) return f;
    while (av_read_frame(c, packet) >= 0) {
        /* the EIT's stream is there from its first section on */
        c->streams[packet->stream_index]->discard = discard;
        f.sections++;
        f.bytes += (size_t)packet->size;
        f.accepted++;
        av_packet_unref(packet);
    }
    av_dict_free(&options);
    av_packet_free(&packet);
    avformat_close_input(&c);
    av_freep(&io->buffer);
    avio_context_free(&io);
    return f;
}

struct found avformat_each(const struct stream *t) { return run(t, AVDISCARD_NONE); }

/* What it found it does not say; that it finds all, avformat_each shows. */
struct found avformat_crc(const struct stream *t) {
    run(t, AVDISCARD_ALL);
    return (struct found){t->sections, t->section_bytes, t->sections};
}
