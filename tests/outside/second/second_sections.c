#include "second.h"
#include "second_shared.h"

#include <string.h>

/* "Judging a section" */

static struct second_verdict refused(unsigned number, size_t place)
{
    struct second_verdict v = {number, (unsigned)place};
    return v;
}

static const struct second_verdict accepted;

/* "9: a descriptor reaches past its loop, or one byte is left; place of its tag" */
static struct second_verdict judge_descriptors(const uint8_t *s, size_t at, size_t end)
{
    while (at < end) {
        if (end - at == 1)
            return refused(9, at);
        if (at + 2 + s[at + 1] > end)
            return refused(9, at);
        at += 2 + s[at + 1];
    }
    return accepted;
}

/* "An entry's fixed bytes end in its own loop length." */
static struct second_verdict judge_entries(const uint8_t *s, size_t at, size_t end, unsigned fixed)
{
    while (at < end) {
        /* "10: fewer bytes left than an entry's fixed part .. place of the first of them" */
        if (end - at < fixed)
            return refused(10, at);
        size_t length = twelve(s + at + fixed - 2);
        /* "8: a loop reaches past its container; place of its length" */
        if (at + fixed + length > end)
            return refused(8, at + fixed - 2);
        struct second_verdict v = judge_descriptors(s, at + fixed, at + fixed + length);
        if (v.number)
            return v;
        at += fixed + length;
    }
    return accepted;
}

/* "Second loop and TOT loop must end at the CRC: 8 if beyond, 10 if short, judged before what they hold." */
static struct second_verdict judge_last_loop(const uint8_t *s, size_t at, size_t crc)
{
    size_t end = at + 2 + twelve(s + at);
    if (end > crc)
        return refused(8, at);
    if (end < crc)
        return refused(10, end);
    return accepted;
}

struct second_verdict second_judge(const uint8_t *s, size_t size)
{
    struct second_verdict v;
    /* "1: fewer than 3 bytes" */
    if (size < 3)
        return refused(1, 0);
    /* "2: table_id not in the table" */
    enum table t = table_of(s[0]);
    if (t == UNKNOWN)
        return refused(2, 0);
    /* "3: wrong syntax bit" */
    if (s[1] / 128u != syntax_bit(t))
        return refused(3, 0);
    /* "4: section_length outside its row" */
    unsigned length = twelve(s + 1);
    if (length < least_length(t) || length > most_length(t))
        return refused(4, 0);
    /* "5: bytes given are not 3 + section_length" */
    if (size != 3 + length)
        return refused(5, 0);
    /* "All but TDT end in CRC_32" */
    if (t == TDT)
        return accepted;
    /* "6: CRC register not zero" */
    if (second_crc(s, size) != 0)
        return refused(6, 0);
    /* "7: section_number above last_section_number (NIT, SDT, BAT, EIT)" */
    if (t != TOT && s[6] > s[7])
        return refused(7, 0);

    size_t crc = size - 4;
    if (t == SDT)
        return judge_entries(s, 11, crc, 5);
    if (t == EIT)
        return judge_entries(s, 14, crc, 12);
    if (t == TOT) {
        v = judge_last_loop(s, 8, crc);
        return v.number ? v : judge_descriptors(s, 10, crc);
    }
    /* "The top loop of NIT and BAT must leave room for the second length." */
    size_t top_end = 10 + twelve(s + 8);
    if (top_end > crc - 2)
        return refused(8, 8);
    v = judge_descriptors(s, 10, top_end);
    if (v.number)
        return v;
    v = judge_last_loop(s, top_end, crc);
    if (v.number)
        return v;
    return judge_entries(s, top_end + 2, crc, 6);
}

/* Search */

/* Whether the loop from `at` to `end` has the tag; the body's place and size are written if so. */
static int seek(const uint8_t *s, size_t at, size_t end, uint8_t tag, struct second_found *found)
{
    while (at < end) {
        if (s[at] == tag) {
            found->kind = SECOND_HIT;
            found->at = at + 2;
            found->size = s[at + 1];
            return 1;
        }
        at += 2 + s[at + 1];
    }
    return 0;
}

struct second_found second_search(const uint8_t *s, size_t size, uint8_t tag)
{
    struct second_found found;
    memset(&found, 0, sizeof found);
    found.kind = SECOND_NONE;
    /* "It refuses 1 to 10 first." */
    struct second_verdict v = second_judge(s, size);
    if (v.number) {
        found.number = v.number;
        found.place = v.place;
        return found;
    }
    enum table t = table_of(s[0]);
    size_t crc = size - 4, at;
    if (t == TDT)
        return found;
    if (t == TOT) {
        seek(s, 10, crc, tag, &found);
        return found;
    }
    if (t == SDT)
        at = 11;
    else if (t == EIT)
        at = 14;
    else {
        size_t top_end = 10 + twelve(s + 8);
        if (seek(s, 10, top_end, tag, &found))
            return found;
        at = top_end + 2;
    }
    /* "with 0 for the top loop or the entry's number from 1" */
    for (unsigned entry = 1; at < crc; entry++) {
        size_t first = at + fixed_bytes(t), end = first + twelve(s + first - 2);
        if (seek(s, first, end, tag, &found)) {
            found.loop = entry;
            return found;
        }
        at = end;
    }
    return found;
}
