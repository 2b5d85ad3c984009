/*
 * libavformat writes sections into packets, for the library to read:
 *     muxer SEED COUNT FILE       COUNT streams with PAT, NIT, SDT and PMTs of many sizes
 * In the file each stream is the number of its packets 4, little-endian, and the packets that carry sections, as its muxer
 * wrote them.
 */
#include <libavformat/avformat.h>

#include <stdint.h>
#include <stdio.h>
#include <stdlib.h>
#include <string.h>

enum { PACKET = 188, PACKETS_MOST = 1 << 14 };

static uint8_t packets[PACKETS_MOST * PACKET];
static size_t size;

static uint64_t state;

/* From `from` to `to`. */
static unsigned some(unsigned from, unsigned to)
{
    state = state * 6364136223846793005u + 1442695040888963407u;
    return from + (unsigned)((state >> 33) % (to - from + 1));
}

static void give_up(const char *what)
{
    fprintf(stderr, "muxer: %s\n", what);
    exit(2);
}

static int written(void *opaque, uint8_t *bytes, int n)
{
    (void)opaque;
    if (sizeof packets - size < (size_t)n)
        give_up("more packets than there is room for");
    memcpy(packets + size, bytes, (size_t)n);
    size += (size_t)n;
    return n;
}

static void name(AVDictionary **metadata, const char *key, unsigned most)
{
    char text[256];
    unsigned n = some(0, most);
    for (unsigned i = 0; i < n; i++)
        text[i] = (char)some('a', 'z');
    text[n] = 0;
    av_dict_set(metadata, key, text, 0);
}

/* An audio stream, whose language takes six bytes of its PMT. */
static void add_stream(AVFormatContext *c, int program)
{
    AVStream *s = avformat_new_stream(c, NULL);
    if (!s)
        give_up("no stream");
    s->codecpar->codec_type = AVMEDIA_TYPE_AUDIO;
    s->codecpar->codec_id = AV_CODEC_ID_MP2;
    s->codecpar->sample_rate = 48000;
    if (some(0, 2) > 0)
        av_dict_set(&s->metadata, "language", "fin", 0);
    av_program_add_stream_index(c, program, (unsigned)s->index);
}

/* The tables come before the first packet of a stream. Of names that one section cannot hold the muxer makes no SDT, or begins no stream. */
static void write_stream(void)
{
    AVFormatContext *c = NULL;
    AVDictionary *options = NULL;
    AVPacket *packet = av_packet_alloc();
    int programs = (int)some(1, some(0, 3) > 0 ? 3 : 24);
    if (!packet || avformat_alloc_output_context2(&c, NULL, "mpegts", NULL) < 0)
        give_up("no mpegts muxer");
    c->pb = avio_alloc_context(av_malloc(4096), 4096, 1, NULL, NULL, written, NULL);
    for (int i = 1; i <= programs; i++) {
        AVProgram *program = av_new_program(c, i);
        unsigned streams = some(1, some(0, 5) > 0 ? 3 : 40);
        name(&program->metadata, "service_name", programs < 4 ? 200 : 600 / (unsigned)programs);
        name(&program->metadata, "service_provider", programs < 4 ? 50 : 100 / (unsigned)programs);
        while (streams-- > 0)
            add_stream(c, i);
    }
    if (some(0, 1) > 0)
        av_dict_set(&options, "mpegts_flags", "nit", 0);
    if (avformat_write_header(c, &options) < 0 || av_new_packet(packet, 16) < 0)
        give_up("no header");
    memset(packet->data, 0, 16);
    packet->pts = packet->dts = 0;
    if (av_write_frame(c, packet) < 0 || av_write_trailer(c) < 0)
        give_up("no packets");
    avio_flush(c->pb);
    av_packet_free(&packet);
    av_dict_free(&options);
    av_freep(&c->pb->buffer);
    avio_context_free(&c->pb);
    avformat_free_context(c);
}

/* Streams of audio have PIDs from 0x0100 on, PMTs from 0x1000 on. */
static int carries_sections(const uint8_t *packet)
{
    unsigned pid = packet[1] % 32u * 256u + packet[2];
    return pid < 0x20 || pid >= 0x1000;
}

int main(int argc, char **argv)
{
    FILE *file = argc == 4 ? fopen(argv[3], "wb") : NULL;
    if (!file)
        give_up("usage: muxer SEED COUNT FILE");
    state = strtoull(argv[1], NULL, 0);
    av_log_set_level(AV_LOG_QUIET);
    for (unsigned long i = strtoul(argv[2], NULL, 0); i > 0; i--) {
        uint32_t kept = 0;
        size = 0;
        write_stream();
        for (size_t at = 0; at < size; at += PACKET)
            if (carries_sections(packets + at))
                memmove(packets + PACKET * kept++, packets + at, PACKET);
        for (int k = 0; k < 4; k++)
            putc((int)(kept >> 8 * k & 255), file);
        fwrite(packets, PACKET, kept, file);
    }
    return ferror(file) | fclose(file) ? 2 : 0;
}
