#include "kinds.h"
#include "lohitunga.h"
#include "second.h"
#include "tally.h"

/* The parts of a section */

void prepare_parts(void)
{
    must_meet("open", "0 1 2 3 4 5 6 7 8 9 10");
    must_meet("entry", "found none");
    must_meet("descriptor", "found none");
    must_meet("section of a room", "found none");
}

#define PART(p) (long long)(p).start, (long long)(p).size

static struct second_part part_of(lohitunga_part p) { return (struct second_part){p.start, p.size}; }

static struct second_opened compare_open(const uint8_t *section, size_t size)
{
    struct second_opened o = second_open(section, size);
    for (enum placing p = 0; p < PLACINGS; p++) {
        call_begins("lohitunga_open", p);
        call_piece("section", section, size);
        lohitunga_open_answer a = lohitunga_open(lend(section, size, p), size);
        lohitunga_head h = a.head;
        long long library[] = {a.number, (long long)a.place, h.table_id, h.network_id, h.bouquet_id, h.service_id, h.transport_stream_id,
                               h.original_network_id, h.version_number, h.current_next_indicator, h.section_number, h.last_section_number,
                               PART(a.utc_time), PART(a.top), PART(a.entries)};
        long long second[] = {o.number, o.place, o.table_id, o.network_id, o.bouquet_id, o.service_id, o.transport_stream_id,
                              o.original_network_id, o.version, o.current, o.section, o.last,
                              PART(o.utc_time), PART(o.top), PART(o.entries)};
        SAME("number place table_id network_id bouquet_id service_id transport_stream_id original_network_id version_number "
             "current_next_indicator section_number last_section_number utc_time.start utc_time.size top.start top.size entries.start "
             "entries.size", library, second);
        back();
    }
    met_number("open", o.number);
    return o;
}

static struct second_entry compare_entry(const uint8_t *section, size_t size, lohitunga_part rest, enum placing p)
{
    struct second_entry e = second_entry(section, size, part_of(rest));
    call_begins("lohitunga_next_entry", p);
    call_piece("section", section, size);
    call_number("start", (long long)rest.start);
    call_number("size", (long long)rest.size);
    lohitunga_entry_step a = lohitunga_next_entry(lend(section, size, p), size, rest);
    long long library[] = {a.found, a.service_id, a.event_id, a.transport_stream_id, a.original_network_id, PART(a.fixed),
                           PART(a.start_time), PART(a.duration), PART(a.descriptors), PART(a.rest)};
    long long second[] = {e.found, e.service_id, e.event_id, e.transport_stream_id, e.original_network_id, PART(e.fixed),
                          PART(e.start_time), PART(e.duration), PART(e.descriptors), PART(e.rest)};
    SAME("found service_id event_id transport_stream_id original_network_id fixed.start fixed.size start_time.start start_time.size "
         "duration.start duration.size descriptors.start descriptors.size rest.start rest.size", library, second);
    back();
    met_word("entry", e.found ? "found" : "none", 1);
    return e;
}

static struct second_descriptor compare_descriptor(const uint8_t *section, size_t size, lohitunga_part rest, enum placing p)
{
    struct second_descriptor d = second_descriptor(section, size, part_of(rest));
    call_begins("lohitunga_next_descriptor", p);
    call_piece("section", section, size);
    call_number("start", (long long)rest.start);
    call_number("size", (long long)rest.size);
    lohitunga_descriptor_step a = lohitunga_next_descriptor(lend(section, size, p), size, rest);
    long long library[] = {a.found, a.tag, PART(a.descriptor), PART(a.body), PART(a.rest)};
    long long second[] = {d.found, d.tag, PART(d.whole), PART(d.body), PART(d.rest)};
    SAME("found tag descriptor.start descriptor.size body.start body.size rest.start rest.size", library, second);
    back();
    met_word("descriptor", d.found ? "found" : "none", 1);
    return d;
}

static struct second_cut compare_cut(const uint8_t *room, size_t size, lohitunga_part rest, enum placing p)
{
    struct second_cut c = second_cut(room, size, part_of(rest));
    call_begins("lohitunga_next_section", p);
    call_piece("room", room, size);
    call_number("start", (long long)rest.start);
    call_number("size", (long long)rest.size);
    lohitunga_section_step a = lohitunga_next_section(lend(room, size, p), size, rest);
    long long library[] = {a.found, PART(a.section), PART(a.rest)};
    long long second[] = {c.found, PART(c.section), PART(c.rest)};
    SAME("found section.start section.size rest.start rest.size", library, second);
    back();
    met_word("section of a room", c.found ? "found" : "none", 1);
    return c;
}

static lohitunga_part as_lent(struct second_part p) { return (lohitunga_part){p.start, p.size}; }

static void compare_loop(const uint8_t *section, size_t size, struct second_part loop, enum placing p)
{
    struct second_descriptor d = compare_descriptor(section, size, as_lent(loop), p);
    while (d.found)
        d = compare_descriptor(section, size, as_lent(d.rest), p);
}

/* The whole of a section, entry by entry; then parts of any numbers. */
void compare_parts(struct dice *d, const uint8_t *section, size_t size)
{
    static const size_t far[] = {SIZE_MAX, SIZE_MAX - 1, SIZE_MAX / 2 + 1, (size_t)1 << 32};
    enum placing p = below(d, PLACINGS);
    struct second_opened o = compare_open(section, size);
    compare_loop(section, size, o.top, p);
    struct second_entry e = compare_entry(section, size, as_lent(o.entries), p);
    while (e.found) {
        compare_loop(section, size, e.descriptors, p);
        e = compare_entry(section, size, as_lent(e.rest), p);
    }
    compare_cut(section, size, (lohitunga_part){0, size}, p);
    lohitunga_part any = {one_in(d, 8) ? far[below(d, 4)] : below(d, (unsigned)size + 3),
                          one_in(d, 8) ? far[below(d, 4)] : below(d, (unsigned)size + 3)};
    compare_entry(section, size, any, p);
    compare_descriptor(section, size, any, p);
    compare_cut(section, size, any, p);
}
