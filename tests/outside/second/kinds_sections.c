#include "kinds.h"
#include "lohitunga.h"
#include "second.h"
#include "tally.h"

/* Sections: judge, search and, in kinds_parts.c, parts */

static void prepare_sections(void)
{
    must_meet("judge", "0 1 2 3 4 5 6 7 8 9 10");
    must_meet("judge: NIT", "0 3 4 5 6 7 8 9 10");
    must_meet("judge: SDT", "0 3 4 5 6 7 8 9 10");
    must_meet("judge: BAT", "0 3 4 5 6 7 8 9 10");
    must_meet("judge: EIT", "0 3 4 5 6 7 8 9 10");
    must_meet("judge: TDT", "0 3 4 5");
    must_meet("judge: TOT", "0 3 4 5 6 8 9 10");
    must_meet("judge: 8 for", "top-loop second-loop entry's-loop TOT-loop");
    must_meet("judge: 9 in", "top-loop entry's-loop TOT-loop");
    must_meet("judge: 10 for", "entry second-loop TOT-loop");
    must_meet("search", "1 2 3 4 5 6 7 8 9 10 hit none");
    prepare_parts();
}

/* Of which table, and of which loop, so that no row and no part of a sentence is left untried. */
static void place_met(const uint8_t *s, struct second_verdict v)
{
    static const struct { uint8_t first, last; const char *name; } tables[] = {
        {0x40, 0x41, "judge: NIT"}, {0x42, 0x42, "judge: SDT"}, {0x46, 0x46, "judge: SDT"}, {0x4A, 0x4A, "judge: BAT"},
        {0x4E, 0x6F, "judge: EIT"}, {0x70, 0x70, "judge: TDT"}, {0x73, 0x73, "judge: TOT"}};
    if (v.number == 1 || v.number == 2)
        return;
    for (unsigned i = 0; i < COUNT(tables); i++)
        if (s[0] >= tables[i].first && s[0] <= tables[i].last)
            met_number(tables[i].name, v.number);
    if (v.number < 8)
        return;
    int tot = s[0] == 0x73, two_loops = s[0] == 0x40 || s[0] == 0x41 || s[0] == 0x4A;
    unsigned second = two_loops ? 10 + (s[8] % 16u * 256u + s[9]) : 0;
    if (v.number == 8)
        met_word("judge: 8 for", tot ? "TOT-loop" : two_loops && v.place == 8 ? "top-loop"
                                 : two_loops && v.place == second ? "second-loop" : "entry's-loop", 1);
    else if (v.number == 9)
        met_word("judge: 9 in", tot ? "TOT-loop" : two_loops && v.place < second ? "top-loop" : "entry's-loop", 1);
    else
        met_word("judge: 10 for", tot ? "TOT-loop"
                                  : two_loops && v.place == second + 2 + (s[second] % 16u * 256u + s[second + 1]) ? "second-loop"
                                  : "entry", 1);
}

static void compare_judge(const uint8_t *section, size_t size)
{
    struct second_verdict v = second_judge(section, size);
    for (enum placing p = 0; p < PLACINGS; p++) {
        call_begins("lohitunga_judge", p);
        call_piece("section", section, size);
        lohitunga_judge_answer a = lohitunga_judge(lend(section, size, p), size);
        long long library[] = {a.number, (long long)a.place};
        long long second[] = {v.number, v.place};
        SAME("number place", library, second);
        back();
    }
    met_number("judge", v.number);
    place_met(section, v);
}

static void compare_search(const uint8_t *section, size_t size, uint8_t tag)
{
    struct second_found f = second_search(section, size, tag);
    int hit = f.number == 0 && f.kind == SECOND_HIT;
    for (enum placing p = 0; p < PLACINGS; p++) {
        call_begins("lohitunga_search", p);
        call_piece("section", section, size);
        call_number("tag", tag);
        lohitunga_search_answer a = lohitunga_search(lend(section, size, p), size, tag);
        long long library[] = {a.number, (long long)a.place, a.found, (long long)a.entry, (long long)a.start, (long long)a.size};
        long long second[] = {f.number, f.place, hit, hit ? f.loop : 0, hit ? (long long)f.at : 0, hit ? (long long)f.size : 0};
        SAME("number place found entry start size", library, second);
        back();
    }
    if (f.number)
        met_number("search", f.number);
    else
        met_word("search", hit ? "hit" : "none", 1);
}

static void one_section(struct dice *d)
{
    static struct section s;
    make_section_case(d, &s);
    compare_judge(s.bytes, s.size);
    uint8_t tag = (uint8_t)below(d, 256);
    if (s.tag_count > 0 && !one_in(d, 3))
        tag = s.bytes[s.tags[below(d, s.tag_count)]];
    compare_search(s.bytes, s.size, tag);
    compare_parts(d, s.bytes, s.size);
}

const struct kind kind_sections = {"sections", 1, prepare_sections, NULL, one_section};
