/*
 * The library's packets, written and read by parsers that nobody here wrote:
 *     packers FILE        a file of `harness SEED COUNT --lists FILE`
 * biTStream puts the same sections into packets, byte for byte; and the collectors of biTStream, libucsi and libdvbpsi find the
 * same sections in the library's. Where they are known to differ it is named below, with its reason, and counted; any other
 * difference fails.
 */
#include <bitstream/mpeg/psi.h>
#include <bitstream/mpeg/ts.h>
#include <libucsi/section_buf.h>
#include <libucsi/transport_packet.h>

#include <stdbool.h>
/* its headers want bool before them */
#include <dvbpsi/dvbpsi.h>
#include <dvbpsi/psi.h>

#include <stdint.h>
#include <stdio.h>
#include <stdlib.h>
#include <string.h>

#include "reader.h"

enum { BYTES_MOST = 1 << 16, SECTIONS_MOST = 1 << 14 };

/* Sections end to end. */
struct sections {
    uint8_t bytes[BYTES_MOST];
    size_t sizes[SECTIONS_MOST];
    size_t size, count;
};

/* A list of sections, and the library's packets of it. */
struct listed {
    unsigned real, pid, counter;
    struct sections sections;
    uint8_t packets[BYTES_MOST];
    size_t count;
};

/* Reading the file */

static int next(struct listed *l)
{
    if (!goes_on())
        return 0;
    l->real = get(1);
    l->pid = get(2);
    l->counter = get(1);
    l->sections.count = get(2);
    l->count = get(2);
    l->sections.size = 0;
    for (size_t i = 0; i < l->sections.count; i++)
        l->sections.size += l->sections.sizes[i] = get(2);
    if (fread(l->sections.bytes, 1, l->sections.size, file) != l->sections.size || fread(l->packets, TS_SIZE, l->count, file) != l->count)
        exit(2);
    return 1;
}

static void fails(const char *parser, const char *what, const struct listed *l)
{
    printf("packers: %s: %s\n  PID %04X, counter %u, sections of", parser, what, l->pid, l->counter);
    for (size_t i = 0; i < l->sections.count; i++)
        printf(" %zu", l->sections.sizes[i]);
    for (size_t i = 0; i < l->count * TS_SIZE; i++)
        printf("%s%02X", i % TS_SIZE == 0 ? "\n    " : " ", l->packets[i]);
    printf("\npackers: FAILED\n");
    exit(1);
}

/* biTStream's packets */

static unsigned long filled;

/* As its example dvb_gen_si.c does, but that what a section leaves of a packet is the next one's. */
static void bitstream_writes(const struct listed *l)
{
    static uint8_t theirs[BYTES_MOST];
    uint8_t ts[TS_SIZE], ts_offset = 0, cc = (uint8_t)l->counter;
    const uint8_t *section = l->sections.bytes;
    size_t packets = 0;
    for (size_t i = 0; i < l->sections.count; i++, section += l->sections.sizes[i - 1]) {
        uint16_t offset = 0, length = psi_get_length(section) + PSI_HEADER_SIZE;
        while (offset < length) {
            int last_byte = offset == 0 && ts_offset == TS_SIZE - 1 && ts_get_unitstart(ts);
            psi_split_section(ts, &ts_offset, section, &offset);
            if (last_byte) {
                /* It fills the last byte, pointer or not. To go on, the section begins there as the library's does. */
                if (ts_offset != TS_SIZE || offset != 0 || ts[TS_SIZE - 1] != 0xFF)
                    fails("biTStream", "does not fill the last byte", l);
                ts[TS_SIZE - 1] = section[0];
                offset = 1;
                filled++;
            }
            if (offset == length && i + 1 == l->sections.count)
                psi_split_end(ts, &ts_offset);
            if (ts_offset < TS_SIZE)
                continue;
            ts_set_pid(ts, (uint16_t)l->pid);
            ts_set_cc(ts, cc);
            cc = (cc + 1) % 16;
            memcpy(theirs + TS_SIZE * packets++, ts, TS_SIZE);
            ts_offset = 0;
        }
    }
    if (packets != l->count || memcmp(theirs, l->packets, packets * TS_SIZE) != 0)
        fails("biTStream", "writes other packets", l);
}

/* What a parser found */

static struct sections found;

static void find(const uint8_t *section, size_t size)
{
    if (found.count == SECTIONS_MOST || BYTES_MOST - found.size < size)
        return;
    memcpy(found.bytes + found.size, section, size);
    found.sizes[found.count++] = size;
    found.size += size;
}

struct known {
    const char *reason;
    int (*applies)(const uint8_t *section, size_t size);
    unsigned long met;
};

/* All sections, in order, but for those that the parser is known not to find. */
static void compare(const char *parser, struct known *known, const struct listed *l)
{
    size_t at = 0, found_at = 0, k = 0;
    for (size_t i = 0; i < l->sections.count; i++) {
        size_t size = l->sections.sizes[i];
        if (k < found.count && found.sizes[k] == size && memcmp(found.bytes + found_at, l->sections.bytes + at, size) == 0) {
            found_at += found.sizes[k++];
        } else {
            struct known *why = known;
            while (why->reason && !why->applies(l->sections.bytes + at, size))
                why++;
            if (!why->reason)
                fails(parser, "does not find a section", l);
            why->met++;
        }
        at += size;
    }
    if (k != found.count)
        fails(parser, "finds a section that was not written", l);
}

/* Collectors */

static void bitstream_reads(struct listed *l)
{
    uint8_t *buffer;
    uint16_t used;
    int last = -1;
    psi_assemble_init(&buffer, &used);
    for (size_t i = 0; i < l->count; i++) {
        uint8_t *ts = l->packets + i * TS_SIZE, *s, length, cc = ts_get_cc(ts);
        const uint8_t *payload;
        if (!ts_validate(ts) || ts_get_transporterror(ts) || ts_get_pid(ts) != l->pid || !ts_has_payload(ts))
            fails("biTStream", "does not take a packet", l);
        if (last != -1 && (ts_check_duplicate(cc, (uint8_t)last) || ts_check_discontinuity(cc, (uint8_t)last)))
            fails("biTStream", "finds the counter wrong", l);
        last = cc;
        payload = ts_section(ts);
        length = (uint8_t)(ts + TS_SIZE - payload);
        if (!psi_assemble_empty(&buffer, &used) && (s = psi_assemble_payload(&buffer, &used, &payload, &length)))
            find(s, (size_t)psi_get_length(s) + PSI_HEADER_SIZE), free(s);
        payload = ts_next_section(ts);
        length = (uint8_t)(ts + TS_SIZE - payload);
        while (length)
            if ((s = psi_assemble_payload(&buffer, &used, &payload, &length)))
                find(s, (size_t)psi_get_length(s) + PSI_HEADER_SIZE), free(s);
    }
    psi_assemble_reset(&buffer, &used);
}

static void libucsi_reads(struct listed *l)
{
    static uint8_t room[sizeof(struct section_buf) + DVB_MAX_SECTION_BYTES];
    struct section_buf *buf = (struct section_buf *)room;
    struct transport_values values;
    unsigned char counter = 0;
    section_buf_init(buf, DVB_MAX_SECTION_BYTES);
    for (size_t i = 0; i < l->count; i++) {
        struct transport_packet *p = transport_packet_init(l->packets + i * TS_SIZE);
        if (!p || p->transport_error_indicator || transport_packet_pid(p) != (int)l->pid || transport_packet_values_extract(p, &values, 0) < 0)
            fails("libucsi", "does not take a packet", l);
        if (transport_packet_continuity_check(p, values.flags & transport_adaptation_flag_discontinuity, &counter))
            fails("libucsi", "finds the counter wrong", l);
        uint8_t *payload = values.payload;
        int left = values.payload_length, start = p->payload_unit_start_indicator, status;
        while (left) {
            int used = section_buf_add_transport_payload(buf, payload, left, start, &status);
            start = 0;
            left -= used;
            payload += used;
            if (status == 1)
                find(section_buf_data(buf), buf->len);
            if (status != 0)
                section_buf_reset(buf);
            if (status < 0)
                start = 1;
        }
    }
}

static void gathered(dvbpsi_t *handle, dvbpsi_psi_section_t *s)
{
    (void)handle;
    find(s->p_data, s->i_length + 3u);
    dvbpsi_DeletePSISections(s);
}

static void libdvbpsi_reads(struct listed *l)
{
    dvbpsi_t *handle = dvbpsi_new(NULL, DVBPSI_MSG_NONE);
    handle->p_decoder = dvbpsi_decoder_new(gathered, 4096, true, sizeof(dvbpsi_decoder_t));
    for (size_t i = 0; i < l->count; i++)
        dvbpsi_packet_push(handle, l->packets + i * TS_SIZE);
    dvbpsi_decoder_delete(handle->p_decoder);
    handle->p_decoder = NULL;
    dvbpsi_delete(handle);
}

static int over_4093(const uint8_t *section, size_t size) { return (void)section, size > PSI_PRIVATE_MAX_SIZE; }

static struct known of_bitstream[] = {
    {"a section's size is held to 4,093, the most that section_length may be", over_4093, 0},
    {NULL, NULL, 0},
};
static struct known of_libucsi[] = {{NULL, NULL, 0}};
static struct known of_libdvbpsi[] = {{NULL, NULL, 0}};

static const struct reader {
    const char *name;
    void (*reads)(struct listed *);
    int real;           /* whether it judges what it collects, so that lists of sections that stand are read alone */
    struct known *known;
} readers[] = {
    {"biTStream", bitstream_reads, 0, of_bitstream},
    {"libucsi", libucsi_reads, 0, of_libucsi},
    {"libdvbpsi", libdvbpsi_reads, 1, of_libdvbpsi},
};
enum { READERS = sizeof readers / sizeof *readers };

int main(int argc, char **argv)
{
    static struct listed l;
    char word[8];
    unsigned long lists = 0, packets = 0, wanted[READERS] = {0}, read[READERS] = {0};
    if (argc != 2 || !(file = fopen(argv[1], "rb")) || fread(word, 1, 8, file) != 8 || memcmp(word, "lists   ", 8) != 0) {
        fprintf(stderr, "usage: %s FILE\n", argv[0]);
        return 2;
    }
    while (next(&l)) {
        bitstream_writes(&l);
        for (int i = 0; i < READERS; i++) {
            if (readers[i].real && !l.real)
                continue;
            found.count = found.size = 0;
            readers[i].reads(&l);
            compare(readers[i].name, readers[i].known, &l);
            wanted[i] += l.sections.count;
            read[i] += found.count;
        }
        lists++;
        packets += l.count;
    }
    printf("packers: biTStream: known difference, %lu times: where one byte is left, it fills, also in a packet that has its pointer\n", filled);
    printf("packers: biTStream: writes the %lu packets of %lu lists, byte for byte: no other difference\n", packets, lists);
    for (int i = 0; i < READERS; i++) {
        for (const struct known *k = readers[i].known; k->reason; k++)
            printf("packers: %s: known difference, %lu times: %s\n", readers[i].name, k->met, k->reason);
        printf("packers: %s: finds %lu of %lu sections in the library's packets: no other difference\n", readers[i].name, read[i], wanted[i]);
    }
    return 0;
}
