/* What several files of the second implementation read by: numbers, the table of tables, BCD. */
#ifndef SECOND_SHARED_H
#define SECOND_SHARED_H

#include "second.h"

static inline unsigned two(const uint8_t *at) { return at[0] * 256u + at[1]; }

/* "A loop is a 12-bit length in the low bits of two bytes"; section_length stands alike in bytes 1 and 2. */
static inline unsigned twelve(const uint8_t *at) { return at[0] % 16u * 256u + at[1]; }

/* "Tables that are known" */

enum table { NIT, SDT, BAT, EIT, TDT, TOT, UNKNOWN };

static inline enum table table_of(uint8_t table_id)
{
    if (table_id == 0x40 || table_id == 0x41)
        return NIT;
    if (table_id == 0x42 || table_id == 0x46)
        return SDT;
    if (table_id == 0x4A)
        return BAT;
    if (table_id >= 0x4E && table_id <= 0x6F)
        return EIT;
    if (table_id == 0x70)
        return TDT;
    if (table_id == 0x73)
        return TOT;
    return UNKNOWN;
}

static inline unsigned syntax_bit(enum table t) { return t == TDT || t == TOT ? 0 : 1; }

static inline unsigned least_length(enum table t)
{
    switch (t) {
    case NIT: return 13;
    case SDT: return 12;
    case BAT: return 13;
    case EIT: return 15;
    case TDT: return 5;
    default: return 11;
    }
}

static inline unsigned most_length(enum table t)
{
    switch (t) {
    case EIT: return 4093;
    case TDT: return 5;
    default: return 1021;
    }
}

static inline unsigned fixed_bytes(enum table t) { return t == SDT ? 5 : t == EIT ? 12 : 6; }

/* BCD */

/*
 * "63 BCD digit above 9": `digits` half bytes from the high half of the field's first byte on. Document 02: "the place of the
 * first bad digit, counted in half bytes from the field's start", with the field's place, which is counted from `first` on.
 */
static inline struct second_why bcd(const uint8_t *first, const uint8_t *field, unsigned digits, uint32_t *value)
{
    *value = 0;
    for (unsigned i = 0; i < digits; i++) {
        unsigned digit = i % 2 == 0 ? field[i / 2] / 16 : field[i / 2] % 16;
        if (digit > 9)
            return (struct second_why){63, (unsigned)(field - first), i};
        *value = *value * 10 + digit;
    }
    return (struct second_why){0, 0, 0};
}

#endif
