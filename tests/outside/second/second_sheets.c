#include "second.h"
#include "second_shared.h"

#include <stdlib.h>

/* "Content sheets" */

static struct second_written not_written(unsigned number, unsigned place)
{
    struct second_written w = {number, place, 0};
    return w;
}

/* Bytes written one after another into a piece of memory that is large enough. */
struct pen { uint8_t *bytes; size_t size; };

static void put(struct pen *p, unsigned byte) { p->bytes[p->size++] = (uint8_t)byte; }
static void put_two(struct pen *p, unsigned number) { put(p, number / 256 % 256); put(p, number % 256); }
static void put_bytes(struct pen *p, const uint8_t *from, size_t n)
{
    for (size_t i = 0; i < n; i++)
        put(p, from[i]);
}

/* "count, descriptors as broadcast", "each list after the two-byte number of its items" */
static void put_descriptors(struct pen *p, const uint8_t *s, size_t at, size_t end)
{
    unsigned count = 0;
    for (size_t i = at; i < end; i += 2 + s[i + 1])
        count++;
    put_two(p, count);
    put_bytes(p, s + at, end - at);
}

struct second_written second_to_sheet(const uint8_t *s, size_t size, uint8_t *room, size_t room_size)
{
    /* "21: room under 5,120 (for a sheet)"; "Section to sheet: 21, then 1 to 10." */
    if (room_size < 5120)
        return not_written(21, 0);
    struct second_verdict v = second_judge(s, size);
    if (v.number)
        return not_written(v.number, v.place);

    struct pen p = {room, 0};
    enum table t = table_of(s[0]);
    size_t crc = size - 4, at = 0;
    /* "table_id." */
    put(&p, s[0]);
    if (t == TDT || t == TOT) {
        /* "TDT, TOT: time 5." */
        put_bytes(&p, s + 3, 5);
        if (t == TOT)
            put_descriptors(&p, s, 10, crc);
    } else {
        /* "NIT, BAT, SDT, EIT: extension id 2, version 1, current 1, section number 1, last 1." */
        put_two(&p, two(s + 3));
        put(&p, s[5] / 2 % 32);
        put(&p, s[5] % 2);
        put(&p, s[6]);
        put(&p, s[7]);
        if (t == SDT) {
            /* "SDT adds original_network_id 2." */
            put_two(&p, two(s + 8));
            at = 11;
        } else if (t == EIT) {
            /* "EIT adds transport_stream_id 2, original_network_id 2, segment_last_section_number 1, last_table_id 1." */
            put_two(&p, two(s + 8));
            put_two(&p, two(s + 10));
            put(&p, s[12]);
            put(&p, s[13]);
            at = 14;
        } else {
            size_t top_end = 10 + twelve(s + 8);
            put_descriptors(&p, s, 10, top_end);
            at = top_end + 2;
        }
        /* "NIT, BAT, SDT, EIT: count, entries." */
        unsigned fixed = fixed_bytes(t), count = 0;
        for (size_t i = at; i < crc; i += fixed + twelve(s + i + fixed - 2))
            count++;
        put_two(&p, count);
        while (at < crc) {
            size_t first = at + fixed, end = first + twelve(s + first - 2);
            if (t == SDT) {
                /* "service_id 2, schedule flag 1, present/following flag 1, running_status 1, free_CA_mode 1" */
                put_two(&p, two(s + at));
                put(&p, s[at + 2] / 2 % 2);
                put(&p, s[at + 2] % 2);
                put(&p, s[at + 3] / 32);
                put(&p, s[at + 3] / 16 % 2);
            } else if (t == EIT) {
                /* "event_id 2, start 5, duration 3, running_status 1, free_CA_mode 1" */
                put_bytes(&p, s + at, 10);
                put(&p, s[at + 10] / 32);
                put(&p, s[at + 10] / 16 % 2);
            } else {
                /* "NIT/BAT: transport_stream_id 2, original_network_id 2" */
                put_bytes(&p, s + at, 4);
            }
            put_descriptors(&p, s, first, end);
            at = end;
        }
    }
    /* "Success writes the first n bytes and tells n; later bytes stay." */
    struct second_written w = {0, 0, p.size};
    return w;
}

/* A sheet being read from left to right; the first refusal met stays. */
struct desk { const uint8_t *bytes; size_t size, at; unsigned number; };

/* "22: sheet ends early" */
static int has(struct desk *d, size_t n)
{
    if (d->number)
        return 0;
    if (d->size - d->at < n) {
        d->number = 22;
        return 0;
    }
    return 1;
}

static unsigned field(struct desk *d, unsigned bytes)
{
    unsigned value = 0;
    if (!has(d, bytes))
        return 0;
    for (unsigned i = 0; i < bytes; i++)
        value = value * 256 + d->bytes[d->at++];
    return value;
}

/* "24: version above 31, current, flag or free_CA_mode above 1, running_status above 7, section number above last" */
static unsigned small_field(struct desk *d, unsigned most)
{
    unsigned value = field(d, 1);
    if (!d->number && value > most)
        d->number = 24;
    return value;
}

static void copied(struct desk *d, struct pen *p, size_t n)
{
    if (!has(d, n))
        return;
    put_bytes(p, d->bytes + d->at, n);
    d->at += n;
}

static void loop_length(struct pen *p, size_t at, unsigned high_bits, size_t length)
{
    p->bytes[at] = (uint8_t)(high_bits * 16 + length / 256 % 16);
    p->bytes[at + 1] = (uint8_t)(length % 256);
}

/* The two bytes of the length, with the four bits above it, then "count, descriptors". */
static void read_loop(struct desk *d, struct pen *p, unsigned high_bits)
{
    unsigned count = field(d, 2);
    size_t at = p->size;
    put_two(p, 0);
    for (unsigned i = 0; i < count && !d->number; i++) {
        if (!has(d, 2))
            break;
        copied(d, p, 2u + d->bytes[d->at + 1]);
    }
    loop_length(p, at, high_bits, p->size - at - 2);
}

static void read_entry(struct desk *d, struct pen *p, enum table t)
{
    unsigned schedule, following, running, free_ca;
    if (t == SDT) {
        put_two(p, field(d, 2));
        schedule = small_field(d, 1);
        following = small_field(d, 1);
        running = small_field(d, 7);
        free_ca = small_field(d, 1);
        /* "Reserved bits are written as ones." Six of them before the two flags. */
        put(p, 0xFC + schedule * 2 + following);
        read_loop(d, p, running * 2 + free_ca);
    } else if (t == EIT) {
        copied(d, p, 2);
        copied(d, p, 5);
        copied(d, p, 3);
        running = small_field(d, 7);
        free_ca = small_field(d, 1);
        read_loop(d, p, running * 2 + free_ca);
    } else {
        put_two(p, field(d, 2));
        put_two(p, field(d, 2));
        read_loop(d, p, 15);
    }
}

static void read_entries(struct desk *d, struct pen *p, enum table t)
{
    unsigned count = field(d, 2);
    for (unsigned i = 0; i < count && !d->number; i++)
        read_entry(d, p, t);
}

static void read_head(struct desk *d, struct pen *p, enum table t)
{
    put_two(p, field(d, 2));
    unsigned version = small_field(d, 31);
    unsigned current = small_field(d, 1);
    put(p, 0xC0 + version * 2 + current);
    unsigned number = field(d, 1);
    unsigned last = field(d, 1);
    if (!d->number && number > last)
        d->number = 24;
    put(p, number);
    put(p, last);
    if (t == SDT) {
        put_two(p, field(d, 2));
        put(p, 0xFF);
    } else if (t == EIT) {
        put_two(p, field(d, 2));
        put_two(p, field(d, 2));
        put(p, field(d, 1));
        put(p, field(d, 1));
    }
}

struct second_written second_to_section(const uint8_t *sheet, size_t size, uint8_t *room, size_t room_size)
{
    /* "21: room under .. 4,096 (for a section)"; "21 comes first, then 22 to 24 as read left to right, 25, 26" */
    if (room_size < 4096)
        return not_written(21, 0);

    struct desk d = {sheet, size, 0, 0};
    /* A section has fewer than 64 bytes beyond those of its sheet: its head, its loop lengths and its CRC. */
    struct pen p = {malloc(size + 64), 0};
    if (p.bytes == NULL)
        abort();
    unsigned table_id = field(&d, 1);
    enum table t = table_of((uint8_t)table_id);
    /* "23: table_id unknown" */
    if (!d.number && t == UNKNOWN)
        d.number = 23;
    if (!d.number) {
        put(&p, table_id);
        put_two(&p, 0);
        if (t == TDT || t == TOT) {
            copied(&d, &p, 5);
            if (t == TOT)
                read_loop(&d, &p, 15);
        } else {
            read_head(&d, &p, t);
            if (t == NIT || t == BAT) {
                read_loop(&d, &p, 15);
                size_t at = p.size;
                put_two(&p, 0);
                read_entries(&d, &p, t);
                loop_length(&p, at, 15, p.size - at - 2);
            } else {
                read_entries(&d, &p, t);
            }
        }
    }
    /* "25: bytes after the sheet" */
    if (!d.number && d.at < d.size)
        d.number = 25;
    /* "26: section_length would pass its row" */
    size_t length = p.size - 3 + (t == TDT ? 0 : 4);
    if (!d.number && length > most_length(t))
        d.number = 26;
    if (d.number) {
        free(p.bytes);
        return not_written(d.number, 0);
    }
    /* The syntax bit, then three reserved ones (reserved_future_use 1, reserved 2). */
    loop_length(&p, 1, syntax_bit(t) * 8 + 7, length);
    if (t != TDT) {
        uint32_t crc = second_crc(p.bytes, p.size);
        put_two(&p, crc >> 16);
        put_two(&p, crc & 0xFFFF);
    }
    for (size_t i = 0; i < p.size; i++)
        room[i] = p.bytes[i];
    free(p.bytes);
    struct second_written w = {0, 0, p.size};
    return w;
}
