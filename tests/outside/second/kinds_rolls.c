#include "kinds.h"
#include "lohitunga.h"
#include "second.h"
#include "tally.h"

#include <string.h>

/* Rolls */

static void prepare_rolls(void)
{
    must_meet("roll", "0 1 2 3 4 5 6 7 8 9 10 81 82 83 84");
    must_meet("other tables", "complete missing asked-complete asked-missing");
    must_meet("present/following", "below-the-number above-the-last elsewhere");
    must_meet("schedule", "complete missing left-out first-of-its-segment end-the-same end-changes emptied unusable-replaced afresh");
    must_meet("84 for an end", "below-the-number above-the-last elsewhere");
    must_meet("schedule asked", "complete missing end-elsewhere end-above-the-last known-by-2-or-more marks-without-end no-end");
}

static int is_schedule(uint8_t table_id) { return table_id >= 0x50 && table_id <= 0x6F; }

/* The end, in byte 12, "lies below section_number, above last_section_number or in another segment": which of the three. */
static void met_end(const char *call, const uint8_t *section)
{
    if (section[12] < section[6])
        met_word(call, "below-the-number", 1);
    if (section[12] > section[7])
        met_word(call, "above-the-last", 1);
    if (section[12] / 8 != section[6] / 8)
        met_word(call, "elsewhere", 1);
}

static struct second_roll seen_by_second(const lohitunga_roll *r)
{
    struct second_roll s;
    s.empty = r->begun == 0;
    s.table_id = r->table_id;
    s.extension = r->extension;
    s.transport_stream_id = r->transport_stream_id;
    s.original_network_id = r->original_network_id;
    s.version = r->version;
    s.last = r->last;
    for (unsigned i = 0; i < 256; i++)
        s.marks[i] = r->came[i] != 0;
    for (unsigned k = 0; k < SEGMENTS; k++)
        s.ends[k] = r->known[k] ? r->end[k] : SECOND_UNKNOWN;
    return s;
}

static void same_roll(const lohitunga_roll *r, const struct second_roll *s)
{
    uint8_t marks[256], known[SEGMENTS], ends[SEGMENTS];
    long long library[] = {r->begun, r->table_id, r->extension, r->transport_stream_id, r->original_network_id, r->version, r->last};
    long long second[] = {!s->empty, s->table_id, s->extension, s->transport_stream_id, s->original_network_id, s->version, s->last};
    SAME("begun table_id extension transport_stream_id original_network_id version last", library, second);
    for (unsigned i = 0; i < 256; i++)
        marks[i] = s->marks[i];
    same_bytes("came", r->came, marks, 256);
    for (unsigned k = 0; k < SEGMENTS; k++) {
        known[k] = s->ends[k] != SECOND_UNKNOWN;
        ends[k] = known[k] ? (uint8_t)s->ends[k] : 0;
    }
    same_bytes("known", r->known, known, SEGMENTS);
    same_bytes("end", r->end, ends, SEGMENTS);
}

/* What of a schedule's roll was met, as far as its last number. */
static void met_kept(const lohitunga_roll *r)
{
    int ends = 0;
    for (unsigned k = 0; k <= r->last / 8u; k++) {
        const uint8_t *came = r->came + 8 * k;
        if (!r->known[k]) {
            if (came[0] && memcmp(came, came + 1, 7) == 0)
                met_word("schedule asked", "marks-without-end", 1);
            continue;
        }
        ends++;
        if (r->known[k] > 1)
            met_word("schedule asked", "known-by-2-or-more", 1);
        if (r->end[k] / 8u != k)
            met_word("schedule asked", "end-elsewhere", 1);
        else if (r->end[k] > r->last)
            met_word("schedule asked", "end-above-the-last", 1);
    }
    if (!ends)
        met_word("schedule asked", "no-end", 1);
}

static void compare_ask(const lohitunga_roll *roll)
{
    struct second_roll s = seen_by_second(roll);
    struct second_taken t = second_ask(&s);
    int complete = t.kind == SECOND_COMPLETE;
    for (enum placing p = 0; p < PLACINGS; p++) {
        call_begins("lohitunga_roll_ask", p);
        call_piece("roll", roll, sizeof *roll);
        const void *lent = room_lend(&rooms.input, roll, sizeof *roll, p, _Alignof(lohitunga_roll));
        lohitunga_roll_answer a = lohitunga_roll_ask(lent);
        long long library[] = {a.number, (long long)a.place, a.complete, a.missing};
        long long second[] = {0, 0, complete, t.missing};
        SAME("number place complete missing", library, second);
        back();
    }
    if (s.empty)
        return;
    if (!is_schedule(roll->table_id)) {
        met_word("other tables", complete ? "asked-complete" : "asked-missing", 1);
        return;
    }
    met_word("schedule asked", complete ? "complete" : "missing", 1);
    met_kept(roll);
}

/* What was met of a schedule with a section that was taken. */
static void met_schedule(const lohitunga_roll *before, const struct second_roll *after, const struct second_taken *t, const uint8_t *section)
{
    unsigned k = section[6] / 8u, until = t->kind == SECOND_COMPLETE ? after->last + 1 : t->missing, passed = 0, marks = 0;
    for (unsigned i = 0; i < until; i++)
        passed += !after->marks[i];
    for (unsigned i = 8 * k; i < 8 * k + 8; i++)
        marks += before->came[i] != 0;
    met_word("schedule", t->kind == SECOND_COMPLETE ? "complete" : "missing", 1);
    if (passed)
        met_word("schedule", "left-out", 1);
    if (before->begun == 0 || before->version != after->version || before->last != after->last) {
        met_word("schedule", "afresh", 1);
    } else if (!before->known[k]) {
        met_word("schedule", "first-of-its-segment", 1);
    } else if (before->end[k] == section[12]) {
        met_word("schedule", "end-the-same", 1);
    } else {
        int usable = before->end[k] / 8u == k && before->end[k] <= before->last;
        met_word("schedule", usable ? "end-changes" : "unusable-replaced", 1);
        if (usable && marks > 0)
            met_word("schedule", "emptied", 1);
    }
}

/* One section to a roll, which is then as the library left it. */
static void compare_take(lohitunga_roll *roll, const uint8_t *section, size_t size)
{
    struct second_roll after = seen_by_second(roll);
    struct second_taken t = second_take(&after, section, size);
    lohitunga_roll now, before = *roll;
    int complete = t.number == 0 && t.kind == SECOND_COMPLETE;
    for (enum placing p = 0; p < PLACINGS; p++) {
        call_begins("lohitunga_roll_take", p);
        call_piece("roll", roll, sizeof *roll);
        call_piece("section", section, size);
        void *lent = room_lend(&rooms.state, roll, sizeof *roll, p, _Alignof(lohitunga_roll));
        lohitunga_roll_answer a = lohitunga_roll_take(lent, lend(section, size, p), size);
        long long library[] = {a.number, (long long)a.place, a.complete, a.missing};
        long long second[] = {t.number, t.place, complete, t.number ? 0 : t.missing};
        SAME("number place complete missing", library, second);
        memcpy(&now, room_now(&rooms.state), sizeof now);
        if (t.number)
            same_bytes("the roll", (const uint8_t *)&now, (const uint8_t *)roll, sizeof now);
        else
            same_roll(&now, &after);
        must(room_back(&rooms.state), "the canaries beside the roll stand");
        back();
    }
    *roll = now;
    met_number("roll", t.number);
    if (t.number == 84)
        met_end("84 for an end", section);
    if (t.number)
        return;
    if (is_schedule(section[0]))
        met_schedule(&before, &after, &t, section);
    else
        met_word("other tables", complete ? "complete" : "missing", 1);
    if (section[0] == 0x4E || section[0] == 0x4F)
        met_end("present/following", section);
}

static void put_sub_table(struct section *s, const lohitunga_roll *r)
{
    uint8_t *b = s->bytes;
    b[3] = (uint8_t)(r->extension / 256);
    b[4] = (uint8_t)r->extension;
    if (b[0] == 0x42 || b[0] == 0x46) {
        b[8] = (uint8_t)(r->original_network_id / 256);
        b[9] = (uint8_t)r->original_network_id;
    } else if (b[0] >= 0x4E && b[0] <= 0x6F) {
        b[8] = (uint8_t)(r->transport_stream_id / 256);
        b[9] = (uint8_t)r->transport_stream_id;
        b[10] = (uint8_t)(r->original_network_id / 256);
        b[11] = (uint8_t)r->original_network_id;
    }
}

static void put_numbers(struct section *s, unsigned version, unsigned current, unsigned number, unsigned last)
{
    s->bytes[5] = (uint8_t)(s->bytes[5] / 64 * 64 + version % 32 * 2 + current);
    s->bytes[6] = (uint8_t)number;
    s->bytes[7] = (uint8_t)last;
}

static const uint8_t rolled_ids[] = {0x40, 0x41, 0x42, 0x46, 0x4A, 0x4E, 0x4F, 0x50, 0x51, 0x5F, 0x60, 0x6F};

static uint8_t any_id(struct dice *d) { return rolled_ids[below(d, sizeof rolled_ids)]; }

/* Ends as a library leaves them, or any bytes: of another segment, above the last, known by any number, unknown behind marks. */
static void put_any_ends(struct dice *d, lohitunga_roll *r)
{
    enum { USABLE, NONE, MIXED, WILD, MODES } mode = below(d, MODES);
    for (unsigned k = 0; k < SEGMENTS; k++) {
        if (mode == NONE || (mode != USABLE && one_in(d, 4)))
            r->known[k] = 0;
        else if (one_in(d, 2) || r->known[k] == 0)
            r->known[k] = 1;
        if (mode != WILD || one_in(d, 2))
            r->end[k] = mode == MIXED && (k == r->last / 8u || one_in(d, 8)) ? (uint8_t)(8 * k + below(d, 8)) : any_end(d, k, r->last);
    }
}

/* A roll as nobody would leave it. */
static lohitunga_roll any_roll(struct dice *d)
{
    lohitunga_roll r;
    fill(d, (uint8_t *)&r, sizeof r);
    r.begun = one_in(d, 4) ? 0 : r.begun;
    if (!one_in(d, 8))
        r.table_id = any_id(d);
    if (one_in(d, 2))
        r.last = (uint8_t)(one_in(d, 2) ? below(d, 6) : below(d, 20));
    if (one_in(d, 2))
        r.version %= 32;
    for (unsigned i = 0, least = below(d, 4); i < 256; i++)
        r.came[i] = least == 0 ? 1 : r.came[i] % 4 < least ? r.came[i] : 0;
    if (!one_in(d, 8))
        put_any_ends(d, &r);
    return r;
}

/* What a sender keeps to until it changes: of a schedule also the end of each segment. */
struct plan { unsigned version, last; uint8_t ends[SEGMENTS]; };

static void plan_ends(struct dice *d, struct plan *p)
{
    for (unsigned k = 0; k < SEGMENTS; k++)
        p->ends[k] = any_end(d, k, p->last);
}

/* A number that is not left out: the one behind `before`, round about, or any. */
static unsigned next_number(struct dice *d, const struct plan *p, int schedule, int in_order, unsigned before)
{
    unsigned number = in_order ? before + 1 : below(d, p->last + 1);
    if (schedule && number < 256 && number > p->ends[number / 8])
        number = in_order ? (number / 8 + 1) * 8 : between(d, number / 8 * 8, p->ends[number / 8]);
    return number > p->last ? 0 : number;
}

/* The end that its sender gives a section; now and then another: of 84 each case, and any. */
static uint8_t told_end(struct dice *d, const struct plan *p, unsigned number)
{
    if (!one_in(d, 14))
        return p->ends[number / 8];
    switch (below(d, 4)) {
    case 0: return (uint8_t)(number - number % 8 + below(d, 8));
    case 1: return (uint8_t)(p->last + 1 + below(d, 4));
    case 2: return (uint8_t)between(d, number, 255);
    default: return (uint8_t)below(d, 256);
    }
}

/* Sections of one sub-table, among others, to one roll: about as many as it takes to complete it. */
static void one_roll(struct dice *d)
{
    static struct section s;
    lohitunga_roll like = any_roll(d), roll = like;
    if (one_in(d, 2)) {
        roll = lohitunga_roll_empty();
        struct second_roll empty = seen_by_second(&roll);
        must(empty.empty, "a roll in which nothing has come is empty");
        like.table_id = any_id(d);
    }
    struct plan p = {like.version % 32, one_in(d, 60) ? 255 : one_in(d, 3) ? below(d, 28) : below(d, 5), {0}};
    if (!one_in(d, 2))
        p.last = like.last < 28 ? like.last : p.last;
    plan_ends(d, &p);
    for (unsigned k = 0; k < SEGMENTS; k++) /* some are as they are kept */
        if (like.end[k] / 8 == k && like.end[k] <= p.last && !one_in(d, 4))
            p.ends[k] = like.end[k];
    int in_order = one_in(d, 2);
    compare_ask(&roll);
    for (unsigned i = 0, number = 255, count = p.last + 1 + below(d, p.last + 3); i < count; i++) {
        uint8_t id = like.table_id;
        if (one_in(d, 24))
            id = one_in(d, 4) ? (one_in(d, 2) ? 0x70 : 0x73) : any_id(d);
        if (one_in(d, 30)) {
            make_section_case(d, &s);
        } else if (id == 0x70 || id == 0x73) {
            make_section_of(d, &s, id, 1021);
        } else {
            id = id >= 0x40 && id <= 0x6F ? id : 0x42;
            make_section_of(d, &s, id, one_in(d, 8) ? 1021 : 90);
            if (!one_in(d, 30))
                put_sub_table(&s, &like);
            if (one_in(d, 60))
                p.last = below(d, 20), plan_ends(d, &p);
            if (one_in(d, 40))
                p.version = below(d, 32);
            if (one_in(d, 30))
                p.ends[number / 8] = any_end(d, number / 8, p.last);
            number = next_number(d, &p, is_schedule(id), in_order, number);
            put_numbers(&s, p.version, one_in(d, 20) ? 0 : 1, number, p.last);
            if (is_schedule(id))
                s.bytes[12] = told_end(d, &p, number);
            if (one_in(d, 30))
                s.bytes[3 + below(d, 10)] ^= (uint8_t)(1u << below(d, 8));
            put_crc_right(&s);
        }
        compare_take(&roll, s.bytes, s.size);
        if (one_in(d, 8))
            compare_ask(&roll);
    }
}

/* A sequence of sections to a roll has about twelve. */
const struct kind kind_rolls = {"rolls", 8, prepare_rolls, NULL, one_roll};
