#include "second.h"
#include "second_shared.h"

#include <string.h>

/* "The roll" */

/* Document 02: "for table_id 0x50 to 0x6F the numbers stand in thirty-two segments of eight sections, and a segment may end early" */

enum { IN_SEGMENT = 8 };

static int is_schedule(unsigned table_id) { return table_id >= 0x50 && table_id <= 0x6F; }

/* "one kept in a roll but outside its segment or above the last number counts as unknown" */
static int known_end(const struct second_roll *r, unsigned segment)
{
    int end = r->ends[segment];
    if (end < 0 || (unsigned)end / IN_SEGMENT != segment || (unsigned)end > r->last)
        return SECOND_UNKNOWN;
    return end;
}

/*
 * "Complete then means: for each segment from 0 to that of last_section_number, every number from its first to its own
 * segment_last_section_number has come."
 */
static int segments_complete(const struct second_roll *r)
{
    for (unsigned segment = 0; segment <= r->last / IN_SEGMENT; segment++) {
        int end = known_end(r, segment);
        if (end == SECOND_UNKNOWN)
            return 0;
        for (unsigned i = segment * IN_SEGMENT; i <= (unsigned)end; i++)
            if (!r->marks[i])
                return 0;
    }
    return 1;
}

/* ""Smallest missing" passes over numbers that a known segment has left out"; where the end is unknown, "its marks as unset" */
static unsigned smallest_in_segments(const struct second_roll *r)
{
    unsigned smallest = 256; /* no answer at all: it shows where the two disagree on what is complete */
    for (unsigned i = r->last + 1; i-- > 0;) {
        int end = known_end(r, i / IN_SEGMENT);
        int come = end != SECOND_UNKNOWN && r->marks[i], left_out = end != SECOND_UNKNOWN && i > (unsigned)end;
        if (!come && !left_out)
            smallest = i;
    }
    return smallest;
}

/*
 * "84, after 81, when segment_last_section_number lies below section_number, above last_section_number or in another segment";
 * it stands behind the two ids, EN 300 468, 5.2.4
 */
static int end_is_wrong(const uint8_t *s)
{
    unsigned number = s[6], last = s[7], end = s[12];
    return end < number || end > last || end / IN_SEGMENT != number / IN_SEGMENT;
}

/* "It answers the smallest number missing, or complete: all from 0 to last." Of an empty roll 0 is missing. */
struct second_taken second_ask(const struct second_roll *r)
{
    struct second_taken t = {0, 0, SECOND_MISSING, 0};
    if (r->empty)
        return t;
    if (is_schedule(r->table_id)) {
        if (segments_complete(r))
            t.kind = SECOND_COMPLETE;
        else
            t.missing = smallest_in_segments(r);
        return t;
    }
    /* document 02: "Other tables keep the old rule." */
    for (unsigned i = 0; i <= r->last; i++) {
        if (!r->marks[i]) {
            t.missing = i;
            return t;
        }
    }
    t.kind = SECOND_COMPLETE;
    return t;
}

struct second_taken second_take(struct second_roll *r, const uint8_t *s, size_t size)
{
    struct second_taken t;
    memset(&t, 0, sizeof t);
    /* "It takes a section; refuses 1 to 10" */
    struct second_verdict v = second_judge(s, size);
    if (v.number) {
        t.number = v.number;
        t.place = v.place;
        return t;
    }
    /* "then 83 (TDT, TOT)" */
    enum table table = table_of(s[0]);
    if (table == TDT || table == TOT) {
        t.number = 83;
        return t;
    }
    /*
     * "82 (another sub-table)"; "A sub-table is table_id and extension, for SDT also original_network_id, for EIT also both
     * transport ids. An empty roll takes any."
     */
    unsigned extension = two(s + 3);
    unsigned transport = table == EIT ? two(s + 8) : 0;
    unsigned network = table == EIT ? two(s + 10) : table == SDT ? two(s + 8) : 0;
    if (!r->empty) {
        int same = r->table_id == s[0] && r->extension == extension;
        if (table == SDT || table == EIT)
            same = same && r->original_network_id == network;
        if (table == EIT)
            same = same && r->transport_stream_id == transport;
        if (!same) {
            t.number = 82;
            return t;
        }
    }
    /* "81 (current_next_indicator 0)" */
    if (s[5] % 2 == 0) {
        t.number = 81;
        return t;
    }
    if (is_schedule(s[0]) && end_is_wrong(s)) {
        t.number = 84;
        return t;
    }
    /* "A new version or last number starts it afresh." */
    unsigned version = s[5] / 2 % 32, number = s[6], last = s[7];
    if (r->empty || r->version != version || r->last != last) {
        r->empty = 0;
        r->table_id = s[0];
        r->extension = extension;
        r->transport_stream_id = transport;
        r->original_network_id = network;
        r->version = version;
        r->last = last;
        for (int i = 0; i < 256; i++)
            r->marks[i] = 0;
        for (int i = 0; i < SECOND_SEGMENTS; i++)
            r->ends[i] = SECOND_UNKNOWN;
    }
    /*
     * Document 02: "A segment end that changes within one version empties that segment". So does the first one that is known,
     * behind marks that count as unset.
     */
    if (is_schedule(s[0])) {
        unsigned segment = number / IN_SEGMENT;
        if (r->ends[segment] != s[12])
            memset(r->marks + segment * IN_SEGMENT, 0, IN_SEGMENT);
        r->ends[segment] = s[12];
    }
    r->marks[number] = 1;
    return second_ask(r);
}
