#include "second.h"
#include "second_shared.h"

#include <string.h>

/* Parts: a table of EN 300 468, clause 5.2, field by field. What a table does not have is 0, and a part of nothing. */

static struct second_part part(uint64_t start, uint64_t size) { return (struct second_part){start, size}; }

/* A part that does not lie in the bytes hands out nothing. */
static int lies(struct second_part p, size_t size) { return p.start <= size && p.size <= size - p.start; }

/* What is left behind the first n bytes. */
static struct second_part behind(struct second_part p, uint64_t n) { return part(p.start + n, p.size - n); }

struct second_opened second_open(const uint8_t *s, size_t size)
{
    struct second_opened o;
    memset(&o, 0, sizeof o);
    struct second_verdict v = second_judge(s, size);
    o.number = v.number;
    o.place = v.place;
    if (v.number)
        return o;
    enum table t = table_of(s[0]);
    size_t crc = size - 4;
    o.table_id = s[0];
    if (t == TDT || t == TOT) {
        o.utc_time = part(3, 5);
        if (t == TOT)
            o.top = part(10, crc - 10);
        return o;
    }
    o.version = s[5] / 2 % 32;
    o.current = s[5] % 2;
    o.section = s[6];
    o.last = s[7];
    switch (t) {
    case NIT: o.network_id = two(s + 3); break;
    case BAT: o.bouquet_id = two(s + 3); break;
    case SDT:
        o.transport_stream_id = two(s + 3);
        o.original_network_id = two(s + 8);
        break;
    default:
        o.service_id = two(s + 3);
        o.transport_stream_id = two(s + 8);
        o.original_network_id = two(s + 10);
    }
    size_t at = t == SDT ? 11 : 14;
    if (t == NIT || t == BAT) {
        o.top = part(10, twelve(s + 8));
        at = 10 + twelve(s + 8) + 2;
    }
    o.entries = part(at, crc - at);
    return o;
}

struct second_entry second_entry(const uint8_t *s, size_t size, struct second_part rest)
{
    struct second_entry e;
    memset(&e, 0, sizeof e);
    e.rest = rest;
    enum table t = size > 0 ? table_of(s[0]) : UNKNOWN;
    if (t == TDT || t == TOT || t == UNKNOWN || !lies(rest, size) || rest.size < fixed_bytes(t))
        return e;
    unsigned fixed = fixed_bytes(t);
    const uint8_t *at = s + rest.start;
    /* "An entry's fixed bytes end in its own loop length." */
    unsigned loop = twelve(at + fixed - 2);
    if (rest.size - fixed < loop)
        return e;
    e.found = 1;
    e.fixed = part(rest.start, fixed);
    e.descriptors = part(rest.start + fixed, loop);
    e.rest = behind(rest, fixed + loop);
    if (t == SDT)
        e.service_id = two(at);
    else if (t == EIT) {
        e.event_id = two(at);
        e.start_time = part(rest.start + 2, 5);
        e.duration = part(rest.start + 7, 3);
    } else {
        e.transport_stream_id = two(at);
        e.original_network_id = two(at + 2);
    }
    return e;
}

struct second_descriptor second_descriptor(const uint8_t *s, size_t size, struct second_part rest)
{
    struct second_descriptor d;
    memset(&d, 0, sizeof d);
    d.rest = rest;
    if (!lies(rest, size) || rest.size < 2 || rest.size - 2 < s[rest.start + 1])
        return d;
    d.found = 1;
    d.tag = s[rest.start];
    d.whole = part(rest.start, 2 + s[rest.start + 1]);
    d.body = behind(d.whole, 2);
    d.rest = behind(rest, d.whole.size);
    return d;
}

struct second_cut second_cut(const uint8_t *room, size_t size, struct second_part rest)
{
    struct second_cut c;
    memset(&c, 0, sizeof c);
    c.rest = rest;
    if (!lies(rest, size) || rest.size < 3 || rest.size - 3 < twelve(room + rest.start + 1))
        return c;
    c.found = 1;
    c.section = part(rest.start, 3 + twelve(room + rest.start + 1));
    c.rest = behind(rest, c.section.size);
    return c;
}
