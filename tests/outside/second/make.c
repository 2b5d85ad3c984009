#include "make.h"
#include "second.h"

#include <string.h>

/* Dice */

static uint64_t mix(uint64_t z)
{
    z = (z ^ (z >> 30)) * 0xBF58476D1CE4E5B9u;
    z = (z ^ (z >> 27)) * 0x94D049BB133111EBu;
    return z ^ (z >> 31);
}

uint64_t dice_any(struct dice *d)
{
    d->state += 0x9E3779B97F4A7C15u;
    return mix(d->state);
}

struct dice dice_of(uint64_t seed, unsigned kind, uint64_t number)
{
    struct dice d = {mix(mix(seed + 0x9E3779B97F4A7C15u) + kind * 0x100000001B3u) ^ mix(number + 1), 0};
    return d;
}

unsigned below(struct dice *d, unsigned n) { return (unsigned)((dice_any(d) >> 32) * n >> 32); }
unsigned between(struct dice *d, unsigned from, unsigned to) { return from + below(d, to - from + 1); }
int one_in(struct dice *d, unsigned n) { return below(d, n) == 0; }

void fill(struct dice *d, uint8_t *to, size_t n)
{
    uint64_t bits = 0;
    for (size_t i = 0; i < n; i++) {
        if (i % 8 == 0)
            bits = dice_any(d);
        to[i] = (uint8_t)(bits >> i % 8 * 8);
    }
}

static uint8_t any_byte(struct dice *d) { return (uint8_t)below(d, 256); }

/* A byte that is on an edge more often than by chance. */
static uint8_t edge_byte(struct dice *d)
{
    static const uint8_t edges[] = {0, 1, 2, 3, 0x7F, 0x80, 0xFD, 0xFE, 0xFF, 0x47, 0x0F, 0xF0, 181, 182, 183, 184};
    return one_in(d, 2) ? edges[below(d, sizeof edges)] : any_byte(d);
}

/* Descriptors */

const uint8_t typed_tags[11] = {0x40, 0x41, 0x42, 0x43, 0x44, 0x48, 0x4D, 0x54, 0x55, 0x58, 0x5A};

static uint8_t bcd_byte(struct dice *d, unsigned most)
{
    unsigned value = below(d, most + 1);
    return (uint8_t)(value / 10 * 16 + value % 10);
}

/* Two digits that may be a number up to `most`, or too large a number, or no digits at all. */
static uint8_t clock_byte(struct dice *d, unsigned most, int wild)
{
    wild = wild && !d->tame;
    if (wild && one_in(d, 12))
        return any_byte(d);
    if (wild && one_in(d, 12))
        return bcd_byte(d, 99);
    if (one_in(d, 8))
        return (uint8_t)(most / 10 * 16 + most % 10);
    return bcd_byte(d, most);
}

static void put_time(struct dice *d, uint8_t *to, int wild)
{
    unsigned mjd = between(d, 15079, 65535);
    wild = wild && !d->tame;
    if (one_in(d, 10)) {
        memset(to, 0xFF, 5);
        if (wild && one_in(d, 2))
            to[below(d, 5)] ^= (uint8_t)(1u << below(d, 8));
        return;
    }
    if (wild && one_in(d, 8))
        mjd = below(d, 65536);
    if (one_in(d, 16))
        mjd = one_in(d, 2) ? 15079 : wild ? 15078 : 65535;
    to[0] = (uint8_t)(mjd / 256);
    to[1] = (uint8_t)mjd;
    to[2] = clock_byte(d, 23, wild);
    to[3] = clock_byte(d, 59, wild);
    to[4] = clock_byte(d, 59, wild);
}

static void put_digits(struct dice *d, uint8_t *to, unsigned digits, int wild)
{
    wild = wild && !d->tame;
    for (unsigned i = 0; i < digits; i++) {
        unsigned digit = wild && one_in(d, 60) ? between(d, 10, 15) : below(d, 10);
        if (i % 2 == 0)
            to[i / 2] = (uint8_t)(digit * 16 + to[i / 2] % 16);
        else
            to[i / 2] = (uint8_t)(to[i / 2] / 16 * 16 + digit);
    }
}

static size_t put_text(struct dice *d, uint8_t *to, size_t most)
{
    size_t n = one_in(d, 12) ? most : below(d, most < 24 ? (unsigned)most + 1 : 25);
    for (size_t i = 0; i < n; i++)
        to[i] = d->tame ? (uint8_t)between(d, 'a', 'z') : one_in(d, 20) ? any_byte(d) : (uint8_t)between(d, 0x20, 0x7E);
    return n;
}

static void put_letters(struct dice *d, uint8_t *to)
{
    for (int i = 0; i < 3; i++)
        to[i] = (uint8_t)between(d, 'A', 'Z');
}

static size_t items(struct dice *d, size_t item)
{
    return item * (one_in(d, 12) ? 255 / item : below(d, 5));
}

size_t make_typed(struct dice *d, uint8_t tag, uint8_t *to, int wild)
{
    uint8_t *b = to + 2;
    size_t n = 0, first;
    switch (tag) {
    case 0x40:
    case 0x42:
        n = put_text(d, b, 255);
        break;
    case 0x41:
        n = items(d, 3);
        fill(d, b, n);
        break;
    case 0x43:
    case 0x44:
        n = 11;
        fill(d, b, n);
        put_digits(d, b, 8, wild);
        if (tag == 0x43)
            put_digits(d, b + 4, 4, wild);
        put_digits(d, b + 7, 7, wild);
        break;
    case 0x48:
    case 0x4D:
        first = tag == 0x48 ? 1 : 3;
        if (tag == 0x48)
            b[0] = any_byte(d);
        else
            put_letters(d, b);
        b[first] = (uint8_t)put_text(d, b + first + 1, 253 - first);
        n = first + 1 + b[first];
        b[n] = (uint8_t)put_text(d, b + n + 1, 254 - n);
        n += 1u + b[n];
        break;
    case 0x54:
        n = items(d, 2);
        fill(d, b, n);
        break;
    case 0x55:
        n = items(d, 4);
        for (size_t i = 0; i < n; i += 4) {
            put_letters(d, b + i);
            b[i + 3] = any_byte(d);
        }
        break;
    case 0x58:
        n = items(d, 13);
        for (size_t i = 0; i < n; i += 13) {
            put_letters(d, b + i);
            b[i + 3] = any_byte(d);
            b[i + 4] = clock_byte(d, 23, wild);
            b[i + 5] = clock_byte(d, 59, wild);
            put_time(d, b + i + 6, wild);
            b[i + 11] = clock_byte(d, 23, wild);
            b[i + 12] = clock_byte(d, 59, wild);
        }
        break;
    default:
        n = 11;
        fill(d, b, n);
    }
    to[0] = tag;
    to[1] = (uint8_t)n;
    return 2 + n;
}

size_t make_reading_case(struct dice *d, uint8_t tag, uint8_t *to)
{
    size_t n = make_typed(d, tag, to, one_in(d, 2)), more;
    switch (below(d, 20)) {
    case 0: /* cut */
        n = below(d, (unsigned)n + 1);
        break;
    case 1: /* cut, and the length byte put right */
        n = below(d, (unsigned)n + 1);
        if (n >= 2)
            to[1] = (uint8_t)(n - 2);
        break;
    case 2: /* bytes behind it */
        more = between(d, 1, 40);
        fill(d, to + n, more);
        n += more;
        break;
    case 3: /* bytes behind it, and the length byte put right where it can be */
        more = between(d, 1, 14);
        fill(d, to + n, more);
        n += more;
        to[1] = (uint8_t)(n - 2);
        break;
    case 4:
        to[0] = one_in(d, 2) ? typed_tags[below(d, 11)] : any_byte(d);
        break;
    case 5:
        to[1] = one_in(d, 2) ? (uint8_t)(to[1] + between(d, 0, 4) - 2) : any_byte(d);
        break;
    case 6: /* some bytes of any kind */
        for (unsigned i = below(d, 4); i > 0 && n > 2; i--)
            to[2 + below(d, (unsigned)n - 2)] = edge_byte(d);
        break;
    case 7: /* all bytes of any kind behind tag and length */
        n = between(d, 2, 60);
        fill(d, to, n);
        to[0] = tag;
        to[1] = (uint8_t)(n - 2);
        break;
    case 8:
        n = below(d, 4);
        fill(d, to, n);
        if (n > 0 && one_in(d, 2))
            to[0] = tag;
        break;
    default:
        break;
    }
    return n;
}

size_t make_descriptor(struct dice *d, uint8_t *to, size_t most)
{
    if (one_in(d, 2)) {
        uint8_t typed[260];
        size_t n = make_typed(d, typed_tags[below(d, 11)], typed, one_in(d, 8));
        if (n <= most) {
            memcpy(to, typed, n);
            return n;
        }
    }
    size_t n = one_in(d, 10) ? below(d, 256) : below(d, 12);
    if (n > most - 2)
        n = most - 2;
    to[0] = d->tame ? (uint8_t)between(d, 0xE0, 0xEF) : any_byte(d);
    to[1] = (uint8_t)n;
    fill(d, to + 2, n);
    return 2 + n;
}

/* Sections */

static int has_crc(const struct section *s) { return s->bytes[0] != 0x70; }

/* second_crc a byte at a time, by what that makes of each single byte: most of the time of a case would go there. */
static uint32_t quick_crc(const uint8_t *bytes, size_t size)
{
    static uint32_t table[256];
    for (unsigned i = 0; table[255] == 0; i++) {
        uint8_t byte = (uint8_t)~i; /* the register's ones, with this byte, have i on top */
        table[i] = second_crc(&byte, 1) ^ 0xFFFFFF00u;
    }
    uint32_t reg = 0xFFFFFFFFu;
    for (size_t i = 0; i < size; i++)
        reg = reg << 8 ^ table[reg >> 24 ^ bytes[i]];
    return reg;
}

void put_crc_right(struct section *s)
{
    if (!has_crc(s) || s->size < 7)
        return;
    uint32_t crc = quick_crc(s->bytes, s->size - 4);
    for (int i = 0; i < 4; i++)
        s->bytes[s->size - 4 + (size_t)i] = (uint8_t)(crc >> (24 - 8 * i));
}

static void put_twelve(uint8_t *at, size_t value)
{
    at[0] = (uint8_t)(at[0] / 16 * 16 + value / 256 % 16);
    at[1] = (uint8_t)value;
}

static unsigned get_twelve(const uint8_t *at) { return at[0] % 16u * 256u + at[1]; }

void put_length_and_crc_right(struct section *s)
{
    if (s->size < 3)
        return;
    put_twelve(s->bytes + 1, s->size - 3);
    put_crc_right(s);
}

static unsigned fixed_part(uint8_t table_id)
{
    return table_id == 0x42 || table_id == 0x46 ? 5 : table_id >= 0x4E && table_id <= 0x6F ? 12 : 6;
}

/* Descriptors up to `end`, some or as many as fit; the length's place is kept, with each tag's. */
static void put_loop(struct dice *d, struct section *s, unsigned length_at, size_t end, int full)
{
    size_t begin = s->size;
    unsigned wanted = one_in(d, 3) ? 0 : full ? 4000 : between(d, 1, 4);
    while (wanted-- > 0 && end - s->size >= 2 && s->tag_count < TAGS_MOST) {
        s->tags[s->tag_count++] = (unsigned)s->size;
        s->size += make_descriptor(d, s->bytes + s->size, end - s->size);
    }
    put_twelve(s->bytes + length_at, s->size - begin);
    if (s->length_count < LENGTHS_MOST)
        s->lengths[s->length_count++] = length_at;
}

static void put_entries(struct dice *d, struct section *s, size_t end, unsigned count)
{
    unsigned fixed = fixed_part(s->bytes[0]);
    int full = count > 100;
    while (count-- > 0 && end - s->size >= fixed) {
        fill(d, s->bytes + s->size, fixed);
        if (fixed == 12) {
            put_time(d, s->bytes + s->size + 2, one_in(d, 8));
            for (int i = 0; i < 3; i++)
                s->bytes[s->size + 7 + (size_t)i] = clock_byte(d, i == 0 ? 99 : 59, one_in(d, 8));
        }
        s->size += fixed;
        put_loop(d, s, (unsigned)s->size - 2, end, full && one_in(d, 4));
    }
}

/* The loops of a full section end a few bytes before the CRC: one descriptor more fills the gap, or an entry's. */
static void fill_gap(struct section *s, size_t end)
{
    size_t gap = end - s->size;
    if (gap == 0 || s->length_count == 0)
        return;
    unsigned at = s->lengths[s->length_count - 1];
    if (gap < 2 || gap > 257)
        return;
    s->tags[s->tag_count++] = (unsigned)s->size;
    s->bytes[s->size] = 0x42;
    s->bytes[s->size + 1] = (uint8_t)(gap - 2);
    memset(s->bytes + s->size + 2, 0xFF, gap - 2);
    put_twelve(s->bytes + at, get_twelve(s->bytes + at) + gap);
    s->size = end;
}

void make_section_of(struct dice *d, struct section *s, uint8_t table_id, unsigned most_length)
{
    size_t end = 3 + most_length - 4;
    int large = one_in(d, 24);
    unsigned entries = one_in(d, 5) ? 0 : large ? 4000 : between(d, 1, 4);
    s->length_count = s->tag_count = 0;
    fill(d, s->bytes, 14);
    s->bytes[0] = table_id;
    s->bytes[1] = (uint8_t)(s->bytes[1] % 128 + (table_id == 0x70 || table_id == 0x73 ? 0 : 128));
    if (one_in(d, 2)) { /* reserved bits as ones */
        s->bytes[1] |= 0x70;
        s->bytes[5] |= 0xC0;
    }
    if (table_id == 0x70 || table_id == 0x73)
        put_time(d, s->bytes + 3, one_in(d, 4));
    else {
        s->bytes[7] = one_in(d, 2) ? (uint8_t)below(d, 4) : any_byte(d);
        s->bytes[6] = (uint8_t)below(d, s->bytes[7] + 1u);
    }
    if (table_id == 0x70) {
        s->size = 8;
        put_length_and_crc_right(s);
        return;
    }
    if (table_id == 0x73) {
        s->size = 10;
        put_loop(d, s, 8, end, large);
        if (large)
            fill_gap(s, end);
    } else if (table_id == 0x40 || table_id == 0x41 || table_id == 0x4A) {
        s->size = 10;
        put_loop(d, s, 8, end - 2, large && one_in(d, 4));
        unsigned second = (unsigned)s->size;
        s->bytes[second] = any_byte(d);
        s->size += 2;
        put_entries(d, s, end, entries);
        if (large && s->lengths[s->length_count - 1] > second)
            fill_gap(s, end);
        put_twelve(s->bytes + second, s->size - second - 2);
        s->lengths[s->length_count++] = second;
    } else {
        s->size = fixed_part(table_id) == 5 ? 11 : 14;
        put_entries(d, s, end, entries);
        if (large)
            fill_gap(s, end);
    }
    s->size += 4;
    put_length_and_crc_right(s);
}

static uint8_t any_table_id(struct dice *d)
{
    static const uint8_t ids[] = {0x40, 0x41, 0x42, 0x46, 0x4A, 0x4A, 0x4E, 0x70, 0x73, 0x73};
    unsigned i = below(d, sizeof ids + 2);
    return i < sizeof ids ? ids[i] : (uint8_t)between(d, 0x4E, 0x6F);
}

void make_section(struct dice *d, struct section *s)
{
    uint8_t table_id = any_table_id(d);
    unsigned most = table_id >= 0x4E && table_id <= 0x6F ? 4093 : 1021;
    if (most == 4093 && !one_in(d, 4))
        most = 1021;
    make_section_of(d, s, table_id, most);
}

void make_section_of_size(struct dice *d, struct section *s, size_t size)
{
    size_t end = size - 4, left, n;
    s->length_count = s->tag_count = 0;
    fill(d, s->bytes, 26);
    s->bytes[0] = (uint8_t)between(d, 0x4E, 0x6F);
    s->bytes[1] |= 0x80;
    s->bytes[6] = (uint8_t)below(d, s->bytes[7] + 1u);
    s->lengths[s->length_count++] = 24;
    put_twelve(s->bytes + 24, end - 26);
    /* One event, and descriptors up to the CRC: no gap of one byte is left. */
    for (s->size = 26; (left = end - s->size) > 0; s->size += n) {
        s->tags[s->tag_count++] = (unsigned)s->size;
        if (left > 300) {
            n = make_descriptor(d, s->bytes + s->size, 257);
            continue;
        }
        n = left > 257 ? 200 : left;
        fill(d, s->bytes + s->size, n);
        s->bytes[s->size + 1] = (uint8_t)(n - 2);
    }
    s->size = size;
    put_length_and_crc_right(s);
}

/* A few bytes more or fewer somewhere behind the head. */
static void insert_or_delete(struct dice *d, struct section *s)
{
    size_t at = between(d, 3, (unsigned)s->size), n = between(d, 1, 8);
    if (one_in(d, 2) || s->size < at + n) {
        memmove(s->bytes + at + n, s->bytes + at, s->size - at);
        fill(d, s->bytes + at, n);
        s->size += n;
    } else {
        memmove(s->bytes + at, s->bytes + at + n, s->size - at - n);
        s->size -= n;
    }
}

/* Another value for a length: a little more or less, 40 more, or any. */
static size_t other_length(struct dice *d, size_t length)
{
    switch (below(d, 6)) {
    case 0: return length + 1;
    case 1: return length - 1;
    case 2: return length + between(d, 2, 6);
    case 3: return length - between(d, 2, 6);
    case 4: return length + 40;
    default: return below(d, 4096);
    }
}

/* A section_length at an edge of some row, and as many bytes. */
static void edge_of_row(struct dice *d, struct section *s)
{
    static const unsigned edges[] = {0, 4, 5, 6, 10, 11, 12, 13, 14, 15, 1020, 1021, 1022, 1023, 1024, 4092, 4093, 4094, 4095};
    size_t before = s->size;
    s->size = 3 + edges[below(d, sizeof edges / sizeof *edges)];
    if (s->size > before)
        fill(d, s->bytes + before, s->size - before);
    put_length_and_crc_right(s);
}

static void change_bytes(struct dice *d, struct section *s, size_t from)
{
    for (unsigned i = between(d, 1, 4); i > 0 && s->size > from; i--)
        s->bytes[from + below(d, (unsigned)(s->size - from))] = edge_byte(d);
}

static void damage(struct dice *d, struct section *s)
{
    uint8_t *at;
    switch (below(d, 16)) {
    case 0: /* too few or too many bytes */
        if (one_in(d, 2))
            s->size = below(d, (unsigned)s->size + 1);
        else {
            size_t more = between(d, 1, 20);
            fill(d, s->bytes + s->size, more);
            s->size += more;
        }
        break;
    case 1:
        s->bytes[0] = any_byte(d);
        put_crc_right(s);
        break;
    case 2:
        s->bytes[1] ^= 0x80;
        put_crc_right(s);
        break;
    case 3:
        edge_of_row(d, s);
        break;
    case 4:
        s->bytes[below(d, (unsigned)s->size)] ^= (uint8_t)(1u << below(d, 8));
        break;
    case 5:
        s->bytes[6] = any_byte(d);
        s->bytes[7] = any_byte(d);
        put_crc_right(s);
        break;
    case 6:
    case 7:
    case 8: /* the length of a loop */
        if (s->length_count > 0) {
            at = s->bytes + s->lengths[below(d, s->length_count)];
            put_twelve(at, other_length(d, get_twelve(at)));
        }
        put_crc_right(s);
        break;
    case 9:
    case 10: /* the length of a descriptor */
        if (s->tag_count > 0) {
            at = s->bytes + s->tags[below(d, s->tag_count)] + 1;
            *at = (uint8_t)other_length(d, *at);
        }
        put_crc_right(s);
        break;
    case 11:
    case 12: /* bytes more or fewer, the head's length put right */
        insert_or_delete(d, s);
        put_length_and_crc_right(s);
        break;
    case 13:
        change_bytes(d, s, 3);
        put_crc_right(s);
        break;
    case 14:
        change_bytes(d, s, 0);
        put_length_and_crc_right(s);
        break;
    default: /* a head, and behind it bytes of any kind */
        if (s->size > 8)
            fill(d, s->bytes + 8, s->size - 8);
        put_length_and_crc_right(s);
    }
}

void spoil(struct dice *d, struct section *s)
{
    uint8_t *length = s->length_count > 0 ? s->bytes + s->lengths[s->length_count - 1] : NULL;
    uint8_t *tag = s->tag_count > 0 ? s->bytes + s->tags[s->tag_count - 1] : NULL;
    size_t n;
    switch (below(d, 9)) {
    case 0: /* no table */
        s->bytes[0] = (uint8_t)(one_in(d, 2) ? below(d, 0x40) : between(d, 0x74, 0xFE));
        break;
    case 1:
        s->bytes[1] ^= 0x80;
        break;
    case 2: /* a TDT of another length, or one of a row that ends before */
        s->bytes[0] = s->size > 1024 && one_in(d, 2) ? 0x46 : 0x70;
        s->bytes[1] = (uint8_t)(s->bytes[1] % 128 + (s->bytes[0] == 0x46 ? 128 : 0));
        break;
    case 3:
        s->bytes[between(d, 3, (unsigned)s->size - 1)] ^= (uint8_t)(1u << below(d, 8));
        return;
    case 4:
        s->bytes[6] = (uint8_t)between(d, 1, 255);
        s->bytes[7] = (uint8_t)below(d, s->bytes[6]);
        break;
    case 5: /* the last loop's length */
    case 6:
        if (length)
            put_twelve(length, other_length(d, get_twelve(length)));
        break;
    case 7: /* the last descriptor's */
        if (tag)
            tag[1] = (uint8_t)other_length(d, tag[1]);
        break;
    default: /* the last descriptor is shorter, and so is its loop: a few bytes stand behind it */
        n = tag && tag[1] > 0 ? between(d, 1, tag[1] < 11 ? tag[1] : 11) : 0;
        if (length && tag > length && get_twelve(length) >= n) {
            tag[1] = (uint8_t)(tag[1] - n);
            put_twelve(length, get_twelve(length) - n);
        }
    }
    put_crc_right(s);
}

void make_section_case(struct dice *d, struct section *s)
{
    if (one_in(d, 40)) {
        s->length_count = s->tag_count = 0;
        s->size = one_in(d, 4) ? below(d, 600) : below(d, 9);
        fill(d, s->bytes, s->size);
        if (s->size > 0 && one_in(d, 2))
            s->bytes[0] = any_table_id(d);
        return;
    }
    if (one_in(d, 40)) { /* right but for its length: more than its row has */
        uint8_t table_id = any_table_id(d);
        make_section_of(d, s, table_id, one_in(d, 2) ? 1100 : 4095);
        return;
    }
    if (one_in(d, 100)) { /* a TDT with more behind it */
        make_section_of(d, s, 0x70, 0);
        s->size += between(d, 1, 6);
        put_length_and_crc_right(s);
        return;
    }
    make_section(d, s);
    if (one_in(d, 3))
        return;
    damage(d, s);
    if (s->size > 8 && one_in(d, 10))
        damage(d, s);
}

/* How long a section is: often at an edge of what one packet or two hold. */
static size_t any_size(struct dice *d, int large)
{
    static const unsigned sizes[] = {3, 4, 5, 8, 180, 181, 182, 183, 184, 185, 186, 364, 365, 366, 367, 368, 4094, 4095, 4096};
    return one_in(d, 3) ? sizes[below(d, large ? 19 : 16)] : large ? between(d, 3, 4096) : between(d, 3, 300);
}

/* Bytes of any kind behind a head that declares them. */
static void put_section(struct dice *d, uint8_t *at, size_t n)
{
    fill(d, at, n);
    if (at[0] == 0xFF)
        at[0] = 0x42;
    put_twelve(at + 1, n - 3);
}

void make_whole(struct dice *d, struct section *s, int large)
{
    size_t size = any_size(d, large);
    switch (below(d, 8)) {
    case 0:
    case 1:
        s->length_count = s->tag_count = 0;
        s->size = size;
        put_section(d, s->bytes, size);
        return;
    case 2:
        make_section_of_size(d, s, size < 32 ? size + 32 : size);
        return;
    case 3:
        make_section_of_size(d, s, size < 32 ? size + 32 : size);
        spoil(d, s);
        break;
    case 4: /* none is shorter */
        make_section_of(d, s, one_in(d, 2) ? 0x70 : 0x73, 11);
        break;
    default:
        do
            make_section_case(d, s);
        while (s->size < 3 || s->size > 4096);
        put_twelve(s->bytes + 1, s->size - 3);
    }
    if (s->bytes[0] == 0xFF)
        s->bytes[0] = 0;
}

/* Schedules */

void put_scheduled(const struct scheduled *p, uint8_t *to) { put_scheduled_of(0x50, p, to); }

void put_scheduled_of(uint8_t table_id, const struct scheduled *p, uint8_t *to)
{
    const uint8_t head[SCHEDULED_SIZE - 4] = {table_id, 0xF0, SCHEDULED_SIZE - 3, 0, 1, (uint8_t)(0xC1 | p->version * 2), p->number, p->last,
                                              0, 2, 0, 3, p->end, table_id};
    uint32_t crc = second_crc(head, sizeof head);
    memcpy(to, head, sizeof head);
    for (int i = 0; i < 4; i++)
        to[sizeof head + (size_t)i] = (uint8_t)(crc >> (24 - 8 * i));
}

uint8_t any_end(struct dice *d, unsigned segment, unsigned last)
{
    unsigned first = 8 * segment, most = first + 7 < last ? first + 7 : last;
    return (uint8_t)(most < first ? first : one_in(d, 2) ? most : between(d, first, most));
}

static uint8_t any_ends(struct dice *d, uint8_t *ends, unsigned last)
{
    for (unsigned k = 0; k < SEGMENTS; k++)
        ends[k] = any_end(d, k, last);
    return (uint8_t)last;
}

size_t make_schedule(struct dice *d, struct scheduled *to)
{
    uint8_t ends[SEGMENTS], version = (uint8_t)below(d, 32);
    uint8_t last = any_ends(d, ends, one_in(d, 200) ? 255 : one_in(d, 3) ? below(d, 64) : below(d, 20));
    unsigned lost = one_in(d, 2) ? 0 : between(d, 4, 40), number = below(d, last + 1u), count = 0, size = 0, changes = !one_in(d, 3);
    int in_order = !one_in(d, 3);
    for (unsigned k = 0; k <= last / 8u; k++)
        size += ends[k] - 8 * k + 1;
    size = size * between(d, 4, 6) / 2 + 1;
    while (count < size && count < SCHEDULE_MOST) {
        if (changes && one_in(d, 60))
            ends[number / 8] = any_end(d, number / 8, last);
        if (changes && one_in(d, 90))
            last = any_ends(d, ends, below(d, 20));
        if (changes && one_in(d, 90))
            version = (uint8_t)below(d, 32);
        number = in_order ? number : below(d, last + 1u);
        if (number <= last && number > ends[number / 8])
            number = in_order ? (number / 8 + 1) * 8 : between(d, number / 8 * 8, ends[number / 8]);
        if (number > last)
            number = 0;
        if (lost == 0 || !one_in(d, lost))
            to[count++] = (struct scheduled){version, (uint8_t)number, ends[number / 8], last};
        else
            size--;
        number = number == 255 ? 0 : number + 1;
    }
    return count;
}

/* Sheets */

/* A sheet made larger than its table's row: more descriptors in its last list, counted. */
static size_t overfull(struct dice *d, uint8_t *to)
{
    uint8_t id = any_table_id(d);
    size_t n = 0, count_at, most = id >= 0x4E && id <= 0x6F ? 4093 : 1021;
    unsigned count = 0;
    to[n++] = id;
    if (id == 0x70 || id == 0x73) {
        fill(d, to + n, 5);
        n += 5;
    } else {
        fill(d, to + n, 12);
        to[3] = (uint8_t)below(d, 32);
        to[4] = (uint8_t)below(d, 2);
        to[5] = 0;
        n = id >= 0x4E && id <= 0x6F ? 13 : id == 0x42 || id == 0x46 ? 9 : 7;
    }
    if (id == 0x70)
        return n;
    count_at = n;
    n += 2;
    if (id == 0x40 || id == 0x41 || id == 0x4A || id == 0x73) {
        /* The section's length is then what the sheet's is and a little more: about the row's end, or well beyond. */
        size_t wanted = one_in(d, 3) ? between(d, 900, 9000) : most - 40 + below(d, 60);
        while (n < wanted) {
            size_t left = wanted - n;
            n += make_descriptor(d, to + n, left < 2 ? 2 : left > 257 ? 257 : left);
            count++;
        }
    } else {
        unsigned entries = one_in(d, 2) ? between(d, 195, 210) : between(d, 330, 350);
        for (; count < entries; count++) {
            size_t size = id >= 0x4E && id <= 0x6F ? 14 : 8;
            fill(d, to + n, size);
            to[n + size - 4] = (uint8_t)below(d, 8);
            to[n + size - 3] = (uint8_t)below(d, 2);
            if (size == 8)
                to[n + 2] = to[n + 3] = 1;
            to[n + size - 2] = to[n + size - 1] = 0;
            n += size;
            if (one_in(d, 40)) {
                to[n - 1] = 1;
                n += make_descriptor(d, to + n, 14);
            }
        }
    }
    to[count_at] = (uint8_t)(count / 256);
    to[count_at + 1] = (uint8_t)count;
    if (id == 0x40 || id == 0x41 || id == 0x4A)
        to[n++] = 0, to[n++] = 0;
    return n;
}

size_t make_sheet_case(struct dice *d, uint8_t *to)
{
    struct section s;
    size_t n, more;
    if (one_in(d, 12))
        n = overfull(d, to);
    else {
        make_section(d, &s);
        n = second_to_sheet(s.bytes, s.size, to, SHEET_MOST).written;
    }
    switch (below(d, 16)) {
    case 0:
    case 1: /* ends early */
        n = below(d, (unsigned)n + 1);
        break;
    case 2:
        more = between(d, 1, 20);
        fill(d, to + n, more);
        n += more;
        break;
    case 3:
        to[0] = any_byte(d);
        break;
    case 4:
    case 5: /* a field of the head */
        if (n > 7)
            to[between(d, 3, 7)] = edge_byte(d);
        break;
    case 6:
    case 7:
    case 8: /* any field, the counts among them */
        for (unsigned i = between(d, 1, 3); i > 0 && n > 1; i--)
            to[between(d, 1, (unsigned)n - 1)] = edge_byte(d);
        break;
    case 9: /* a field of a high value, and then too short */
        if (n > 6) {
            to[between(d, 3, 6)] = any_byte(d);
            n = between(d, 3, (unsigned)n);
        }
        break;
    case 10:
        n = below(d, 40);
        fill(d, to, n);
        if (n > 0)
            to[0] = any_table_id(d);
        break;
    default:
        break;
    }
    return n;
}

/* Packets */

void make_sender(struct dice *d, struct sender *s)
{
    s->pid = one_in(d, 8) ? (one_in(d, 2) ? 8191 : 0) : below(d, 8192);
    s->counter = below(d, 16);
    s->size = s->sent = 0;
    s->trouble = one_in(d, 4) ? 0 : between(d, 3, 30);
    s->large = one_in(d, 6);
    s->splices = one_in(d, 3);
    s->marks = s->splices ? 2 : one_in(d, 2) ? 12 : 0;
}

/* One section more into the queue, or filler up to nowhere. */
static void wait(struct dice *d, struct sender *s)
{
    static struct section section;
    make_whole(d, &section, s->large);
    size_t n = section.size;
    uint8_t *at = s->queue + s->size;
    memset(s->begins + s->size, 0, n);
    s->begins[s->size] = 1;
    memcpy(at, section.bytes, n);
    if (s->trouble && one_in(d, s->trouble)) {
        if (one_in(d, 2))
            put_twelve(at + 1, between(d, 4092, 4095)); /* too long, or just not */
        else
            at[0] = 0xFF;
    }
    s->size += n;
}

static void put_payload(struct dice *d, struct sender *s, uint8_t *k, size_t first)
{
    size_t room = 188 - first, left, pointer = 0;
    uint8_t *to = k + first;
    int stuffing = one_in(d, 6);
    if (s->sent > QUEUE_MOST / 2) {
        left = s->size - s->sent;
        memmove(s->queue, s->queue + s->sent, left);
        memmove(s->begins, s->begins + s->sent, left);
        s->size = left;
        s->sent = 0;
    }
    while (s->size - s->sent < room && s->size < QUEUE_MOST - 5000 && !(stuffing && s->size > s->sent))
        wait(d, s);
    left = s->size - s->sent;
    /* The first place in reach of this packet at which a section begins; a pointer byte takes one byte of the room. */
    while (pointer < left && pointer < room && !s->begins[s->sent + pointer])
        pointer++;
    if (pointer < left && pointer + 1 < room) {
        k[1] |= 0x40;
        *to++ = (uint8_t)pointer;
        room--;
    } else if (left > pointer) {
        left = pointer; /* without the flag nothing may begin here */
    }
    size_t n = left < room ? left : room;
    memcpy(to, s->queue + s->sent, n);
    memset(to + n, 0xFF, room - n);
    s->sent += n;
}

/* The shortest section of each table. */
static const struct { uint8_t table_id; unsigned size; } shortest[] = {{0x70, 8}, {0x73, 14}, {0x42, 15}, {0x40, 16}, {0x4A, 16}, {0x4E, 18}};
enum { SHORTEST = sizeof shortest / sizeof *shortest };

/* Whether so many bytes can be filled with them. */
static int can_be_filled(size_t n)
{
    if (n == 0 || n > 35)
        return 1;
    for (int i = 0; i < SHORTEST; i++)
        if (n >= shortest[i].size && can_be_filled(n - shortest[i].size))
            return 1;
    return 0;
}

/* One of them, such that what is left of the packet can be filled too; 0 where none can be. */
static size_t put_shortest(struct dice *d, uint8_t *to, size_t left)
{
    static struct section s;
    if (!can_be_filled(left))
        return 0;
    unsigned i = below(d, SHORTEST);
    while (left < shortest[i].size || !can_be_filled(left - shortest[i].size))
        i = (i + 1) % SHORTEST;
    make_section_of(d, &s, shortest[i].table_id, shortest[i].size - 3);
    memcpy(to, s.bytes, s.size);
    return s.size;
}

void make_full_packet(struct dice *d, unsigned pid, unsigned counter, unsigned pointer, uint8_t *to)
{
    int good = one_in(d, 2);
    fill(d, to, 188);
    to[0] = 0x47;
    to[1] = (uint8_t)(0x40 | pid / 256 % 32);
    to[2] = (uint8_t)pid;
    to[3] = (uint8_t)(0x10 | counter % 16);
    to[4] = (uint8_t)pointer;
    for (size_t at = 5 + pointer, n; at < 188; at += n) {
        n = good || one_in(d, 2) ? put_shortest(d, to + at, 188 - at) : 0;
        if (n > 0)
            continue;
        n = between(d, 3, 20);
        if (188 - at < 23)
            n = 188 - at; /* the last one ends with the payload, unless too few bytes are left */
        to[at] = (uint8_t)between(d, 0x40, 0x73);
        if (n >= 3)
            put_twelve(to + at + 1, n - 3);
    }
}

/* Something that goes wrong on the way. */
static size_t disturb(struct dice *d, struct sender *s, uint8_t *k)
{
    switch (below(d, 14)) {
    case 0: /* lost packets before this one */
        k[3] = (uint8_t)(k[3] / 16 * 16 + (k[3] + between(d, 1, 15)) % 16);
        s->counter = k[3] % 16u + 1;
        break;
    case 1: /* the counter of the packet before */
        k[3] = (uint8_t)(k[3] / 16 * 16 + (k[3] + 15) % 16);
        s->counter = k[3] % 16u + 1;
        break;
    case 2: /* a splice: the sender begins anew with a section, the counter going on or not */
        s->size = s->sent = 0;
        break;
    case 3:
        for (unsigned i = between(d, 1, 3); i > 0; i--)
            k[below(d, 188)] = edge_byte(d);
        break;
    case 4: /* in the head */
        k[below(d, 6)] = edge_byte(d);
        break;
    case 5: /* payload of any kind */
        fill(d, k + 4, 184);
        break;
    case 6: /* a packet of any kind, but for PID and the first byte */
        fill(d, k + 3, 185);
        k[1] = (uint8_t)(k[1] % 128);
        break;
    case 7:
        k[1] ^= 0x40;
        break;
    case 8: /* another pointer */
        k[1] |= 0x40;
        k[4] = edge_byte(d);
        break;
    case 9:
        return one_in(d, 2) ? (one_in(d, 2) ? 187 : 189) : below(d, 400);
    case 10: { /* one bit of the first four bytes */
        unsigned bit = below(d, 32);
        k[bit / 8] ^= (uint8_t)(1u << bit % 8);
        break;
    }
    case 11: /* an adaptation field of any length */
        k[3] = (uint8_t)(k[3] % 64 | between(d, 1, 3) << 4);
        k[4] = edge_byte(d);
        break;
    case 12: /* an adaptation field and a payload of one byte or two */
        k[3] = (uint8_t)(k[3] | 0x30);
        k[4] = (uint8_t)between(d, 180, 183);
        break;
    default:
        fill(d, k, 188);
        if (one_in(d, 2))
            k[0] = 0x47;
    }
    return 188;
}

/* The counter of a sender with splices: the next one, the last one again, or another. */
static unsigned spliced_counter(struct dice *d, const struct sender *s)
{
    switch (below(d, 4)) {
    case 0: return s->counter + 15;
    case 1: return s->counter + between(d, 1, 14);
    default: return s->counter;
    }
}

/* An adaptation field of this length; whether discontinuity_indicator is set in it. One of no bytes has no flags. */
static int put_field(struct dice *d, const struct sender *s, uint8_t *k, unsigned length)
{
    int set = length > 0 && s->marks && one_in(d, s->marks);
    k[4] = (uint8_t)length;
    if (length > 0)
        k[5] = (uint8_t)(k[5] % 128 + set * 128);
    return set;
}

size_t make_packet(struct dice *d, struct sender *s, uint8_t *to)
{
    size_t first = 4;
    unsigned counter = s->splices ? spliced_counter(d, s) : s->counter;
    fill(d, to, PACKET_MOST);
    to[0] = 0x47;
    to[1] = (uint8_t)(to[1] & 0x20) | (uint8_t)(s->pid / 256);
    to[2] = (uint8_t)s->pid;
    to[3] = (uint8_t)(counter % 16);
    if (one_in(d, s->splices ? 3 : 20)) { /* no payload, and the counter does not go on */
        to[3] = (uint8_t)(to[3] + 0x20);
        put_field(d, s, to, 183);
        if (one_in(d, 2))
            to[1] |= 0x40;
    } else {
        if (s->splices ? !one_in(d, 4) : one_in(d, 8)) {
            unsigned length = one_in(d, 4) ? between(d, 180, 182) : below(d, 183);
            if (s->splices && !one_in(d, 3))
                length = below(d, 2);
            to[3] = (uint8_t)(to[3] + 0x30);
            first = 5u + length;
            if (put_field(d, s, to, length) && one_in(d, 2))
                s->size = s->sent = 0; /* behind the splice the sender begins anew with a section */
        } else {
            to[3] = (uint8_t)(to[3] + 0x10);
        }
        put_payload(d, s, to, first);
        s->counter = counter + 1;
    }
    if (s->trouble && one_in(d, s->trouble))
        return disturb(d, s, to);
    return 188;
}

/* Lists of sections, for the writer */

/* One section more, if it has room; whether it has. */
static int add_section(struct dice *d, struct list *l, size_t n)
{
    if (l->count == LIST_MOST || LIST_BYTES - l->size < n)
        return 0;
    put_section(d, l->bytes + l->size, n);
    l->sizes[l->count++] = n;
    l->size += n;
    return 1;
}

/* Sections, the last of which begins with a packet's last byte, or a few bytes before or behind it. */
static void add_edge(struct dice *d, struct list *l)
{
    for (size_t left = between(d, 180, 185), n; left > 0; left -= n) {
        n = left < 40 ? left : between(d, 3, (unsigned)left - 3);
        add_section(d, l, n);
    }
    add_section(d, l, any_size(d, 0));
}

void make_list(struct dice *d, struct list *l, int real)
{
    static struct section s;
    int large = one_in(d, 64), some = !real && one_in(d, 3);
    unsigned sections = one_in(d, 16) ? 0 : one_in(d, 20) ? between(d, 1, 300) : between(d, 1, 4);
    l->size = l->count = 0;
    if (real || some) {
        for (; sections > 0; sections--) {
            if (some)
                make_whole(d, &s, large);
            else
                make_section(d, &s);
            if (l->count == LIST_MOST || LIST_BYTES - l->size < s.size)
                return;
            memcpy(l->bytes + l->size, s.bytes, s.size);
            l->sizes[l->count++] = s.size;
            l->size += s.size;
        }
        return;
    }
    if (sections > 4) { /* many small ones */
        unsigned most = between(d, 3, 24);
        while (sections-- > 0)
            add_section(d, l, between(d, 3, most));
        return;
    }
    if (sections > 0 && one_in(d, 4)) {
        add_edge(d, l);
        return;
    }
    while (sections-- > 0)
        add_section(d, l, any_size(d, large));
}

/* A size that no section has, or another one. */
static size_t other_size(struct dice *d, size_t size)
{
    static const size_t far[] = {SIZE_MAX, SIZE_MAX - 1, SIZE_MAX - 2, SIZE_MAX / 2 + 1, (size_t)1 << 32, 4096, 4097};
    switch (below(d, 4)) {
    case 0: return below(d, 3);
    case 1: return far[below(d, sizeof far / sizeof *far)];
    case 2: return size + between(d, 1, 4);
    default: return size - between(d, 1, size < 4 ? (unsigned)size : 4);
    }
}

static void damage_list(struct dice *d, struct list *l)
{
    size_t i = l->count > 0 ? below(d, (unsigned)l->count) : 0, at = 0, n;
    for (size_t k = 0; k < i; k++) {
        if (l->sizes[k] > l->size - at)
            i = k; /* damaged before: nothing stands behind it */
        else
            at += l->sizes[k];
    }
    uint8_t *section = l->bytes + at;
    unsigned how = l->count > 0 ? below(d, 10) : below(d, 3);
    switch (how) {
    case 0: /* bytes behind the last section */
        n = between(d, 1, 20);
        if (LIST_BYTES - l->size >= n) {
            fill(d, l->bytes + l->size, n);
            l->size += n;
        }
        break;
    case 1: /* one section too many, of bytes that are not there */
        if (l->count < LIST_MOST)
            l->sizes[l->count++] = one_in(d, 2) ? other_size(d, 3) : 3;
        break;
    case 2: /* sections of more than 4,096 bytes, and as much in their heads */
        if (add_section(d, l, between(d, 4097, 4098)) && one_in(d, 2))
            add_section(d, l, 3);
        break;
    case 3: /* a section too few */
        l->count--;
        break;
    case 4: /* the bytes end early */
        l->size -= l->size < 4 ? l->size : between(d, 1, 4);
        break;
    case 5:
        l->sizes[i] = other_size(d, l->sizes[i]);
        break;
    case 6: /* the head's length, and of it mostly one bit */
        if (one_in(d, 4))
            put_twelve(section + 1, below(d, 4096));
        else
            section[1 + below(d, 2)] ^= (uint8_t)(1u << below(d, 4));
        break;
    case 7:
        section[0] = 0xFF;
        break;
    case 8: /* two sizes of which the sum is right, or right modulo 2^64 */
        if (l->count < 2) {
            l->sizes[0] = other_size(d, l->sizes[0]);
        } else {
            size_t other = (i + 1) % l->count, sum = l->sizes[i] + l->sizes[other];
            l->sizes[i] = other_size(d, l->sizes[i]);
            l->sizes[other] = sum - l->sizes[i];
        }
        break;
    default: /* a section of fewer than 3 bytes among the others: the bytes behind it move up */
        n = below(d, 3);
        if (l->count < LIST_MOST && LIST_BYTES - l->size >= n) {
            memmove(section + n, section, l->size - at);
            memmove(l->sizes + i + 1, l->sizes + i, (l->count - i) * sizeof *l->sizes);
            fill(d, section, n);
            l->sizes[i] = n;
            l->size += n;
            l->count++;
        }
    }
}

void make_list_case(struct dice *d, struct list *l)
{
    make_list(d, l, one_in(d, 6));
    if (!one_in(d, 3))
        return;
    damage_list(d, l);
    if (one_in(d, 8))
        damage_list(d, l);
}
