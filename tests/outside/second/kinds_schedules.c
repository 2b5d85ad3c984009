/*
 * Request (i) of document 02: what is missing of a schedule. The second implementation is not asked: a definition goes by the
 * sequence of sections that came, and keeps nothing from one to the next. Every short sequence is gone through, and long ones by
 * the dice.
 */
#include "kinds.h"
#include "lohitunga.h"
#include "tally.h"

#include <stdlib.h>
#include <string.h>

enum { COMPLETE = 256, LAST_MOST = 17, GIVEN_MOST = 676, FIVE = 5 };

static void prepare_schedules(void)
{
    must_meet("ends of a schedule", "84 taken");
    must_meet("ends of 0x4E", "taken");
    must_meet("up to 5 of 39", "complete missing");
    must_meet("up to 3 of 676", "complete missing");
    must_meet("rounds", "complete missing");
}

/* The smallest number that is missing after these sections of one schedule, or COMPLETE. */
static unsigned missing_after(const struct scheduled *s, int count)
{
    const struct scheduled *newest = s + count - 1;
    int first = count - 1;
    /* "A new version or last number starts it afresh." */
    while (first > 0 && s[first - 1].last == newest->last && s[first - 1].version == newest->version)
        first--;
    for (unsigned n = 0; n <= newest->last; n++) {
        int i = count - 1;
        while (i >= first && s[i].number / 8 != n / 8)
            i--;
        if (i < first)
            return n; /* of its segment nothing has come */
        unsigned end = s[i].end;
        if (n > end)
            continue; /* "passes over numbers that a known segment has left out" */
        /* "A segment end that changes within one version empties that segment": what came before another end does not count */
        while (i >= first && s[i].number != n && (s[i].number / 8 != n / 8 || s[i].end == end))
            i--;
        if (i < first || s[i].number != n || s[i].end != end)
            return n;
    }
    return COMPLETE;
}

/* Sections, and every sequence of them */

/* The sections of which sequences are made, end to end in the input's room, and the sequence that is compared now. */
static struct { struct scheduled sections[GIVEN_MOST]; const uint8_t *bytes; unsigned count; } given;
static struct scheduled sequence[SCHEDULE_MOST];

/*
 * The rolls that were met, numbered: what a call does depends on the roll's bytes and the section's alone, so it is made once for
 * each roll and section, however many sequences lead there.
 */
struct met_roll {
    lohitunga_roll roll;
    unsigned asked;             /* the smallest number missing, or COMPLETE */
    uint16_t *answers;          /* the same behind each of the sections; NULL before they were taken */
    unsigned *next;             /* the number of the roll behind each of them; NULL where no sequence goes on */
    unsigned chained;           /* the next roll of the same hash, or none */
};
enum { NONE = 0, CHAINS = 4096 };
static struct { struct met_roll *rolls; unsigned count, capacity, chains[CHAINS]; } met_rolls;

static lohitunga_roll *lent; /* the roll that a call has, at the end of its pages */

static void compare_answer(lohitunga_roll_answer a, unsigned missing, int count)
{
    unsigned complete = missing == COMPLETE;
    if (a.number == 0 && a.place == 0 && a.complete == complete && a.missing == (complete ? 0 : missing))
        return;
    call_begins("lohitunga_roll_take", AT_END);
    call_piece("the sections, each as version, number, end and last number", sequence, (size_t)count * sizeof *sequence);
    long long library[] = {a.number, (long long)a.place, a.complete, a.missing};
    long long definition[] = {0, 0, complete, complete ? 0 : missing};
    as_defined("number place complete missing", library, definition, COUNT(library));
}

static lohitunga_roll_answer answer_of(unsigned missing)
{
    return (lohitunga_roll_answer){0, 0, missing == COMPLETE, (uint8_t)(missing == COMPLETE ? 0 : missing)};
}

static lohitunga_roll_answer take(const lohitunga_roll *roll, const uint8_t *section)
{
    call_begins("lohitunga_roll_take", AT_END);
    call_piece("roll", roll, sizeof *roll);
    call_piece("section", section, SCHEDULED_SIZE);
    *lent = *roll;
    return lohitunga_roll_take(lent, section, SCHEDULED_SIZE);
}

static unsigned number_of(const lohitunga_roll *roll)
{
    const uint8_t *bytes = (const uint8_t *)roll;
    uint32_t hash = 0;
    for (size_t i = 0; i < sizeof *roll; i++)
        hash = (hash ^ bytes[i]) * 0x01000193u;
    unsigned *chain = &met_rolls.chains[hash / 16 % CHAINS];
    for (unsigned i = *chain; i != NONE; i = met_rolls.rolls[i].chained)
        if (memcmp(&met_rolls.rolls[i].roll, roll, sizeof *roll) == 0)
            return i;
    if (met_rolls.count >= met_rolls.capacity) {
        met_rolls.capacity = met_rolls.capacity * 2 + 256;
        met_rolls.rolls = realloc(met_rolls.rolls, met_rolls.capacity * sizeof *met_rolls.rolls);
        must(met_rolls.rolls != NULL, "there is memory for the rolls that are met");
    }
    *lent = *roll;
    lohitunga_roll_answer a = lohitunga_roll_ask(lent);
    struct met_roll new = {*roll, a.complete ? COMPLETE : a.missing, NULL, NULL, *chain};
    met_rolls.rolls[met_rolls.count] = new;
    return *chain = met_rolls.count++;
}

/* Each of the sections to this roll. */
static void take_all(unsigned of, int going_on, int length)
{
    lohitunga_roll roll = met_rolls.rolls[of].roll;
    uint16_t *answers = malloc(given.count * sizeof *answers);
    unsigned *next = going_on ? malloc(given.count * sizeof *next) : NULL;
    must(answers && (next || !going_on), "there is memory for what was answered");
    for (unsigned i = 0; i < given.count; i++) {
        sequence[length - 1] = given.sections[i];
        lohitunga_roll_answer a = take(&roll, given.bytes + i * SCHEDULED_SIZE);
        answers[i] = a.complete ? COMPLETE : a.missing;
        compare_answer(a, answers[i], length); /* no refusal, and 0 missing where it is complete */
        if (!going_on)
            continue;
        lohitunga_roll now = *lent;
        next[i] = number_of(&now);
        must(met_rolls.rolls[next[i]].asked == answers[i], "the roll answers the same when it is asked");
    }
    met_rolls.rolls[of].answers = answers;
    met_rolls.rolls[of].next = next;
}

struct told { unsigned long sequences, complete; };

/* All sequences of `length` sections that begin with the first `at` of the sequence, which lead to the roll of this number. */
static void go_through(unsigned roll, int at, int length, int going_on, struct told *told)
{
    if (at + 1 < length) {
        for (unsigned i = 0; i < given.count; i++) {
            sequence[at] = given.sections[i];
            go_through(met_rolls.rolls[roll].next[i], at + 1, length, going_on, told);
        }
        return;
    }
    if (!met_rolls.rolls[roll].answers)
        take_all(roll, going_on, length);
    call_begins("lohitunga_roll_take", AT_END); /* it is still going on */
    const uint16_t *answers = met_rolls.rolls[roll].answers;
    for (unsigned i = 0; i < given.count; i++) {
        sequence[at] = given.sections[i];
        unsigned missing = missing_after(sequence, length);
        if (answers[i] != missing)
            compare_answer(answer_of(answers[i]), missing, length);
        told->complete += missing == COMPLETE;
    }
    told->sequences += given.count;
}

/* Every sequence of up to `most` of the sections with a last number from `from` to `to`, each from an empty roll on. */
static void every_sequence(const char *name, unsigned from, unsigned to, int most, unsigned count)
{
    static uint8_t bytes[GIVEN_MOST * SCHEDULED_SIZE];
    struct told told = {0, 0};
    given.count = 0;
    for (unsigned last = from; last <= to; last++)
        for (unsigned number = 0; number <= last; number++)
            for (unsigned end = number; end <= last && end / 8 == number / 8; end++) {
                struct scheduled p = {0, (uint8_t)number, (uint8_t)end, (uint8_t)last};
                put_scheduled(&p, bytes + given.count * SCHEDULED_SIZE);
                given.sections[given.count++] = p;
            }
    must(given.count == count, "there are as many sections that 84 does not refuse");
    given.bytes = lend(bytes, count * SCHEDULED_SIZE, AT_END);
    lohitunga_roll empty = lohitunga_roll_empty();
    lent = (void *)room_lend(&rooms.state, &empty, sizeof empty, AT_END, _Alignof(lohitunga_roll));
    memset(&met_rolls, 0, sizeof met_rolls);
    met_rolls.count = NONE + 1; /* what is numbered NONE is no roll */
    unsigned first = number_of(&empty);
    for (int length = 1; length <= most; length++)
        go_through(first, 0, length, length < most, &told);
    met_word(name, "complete", told.complete);
    met_word(name, "missing", told.sequences - told.complete);
    met_word(name, "rolls", met_rolls.count - 1);
    for (unsigned i = 1; i < met_rolls.count; i++) {
        free(met_rolls.rolls[i].answers);
        free(met_rolls.rolls[i].next);
    }
    free(met_rolls.rolls);
    must(room_back(&rooms.state), "the canaries beside the roll stand");
    back();
}

/*
 * "84, after 81, when segment_last_section_number lies below section_number, above last_section_number or in another segment": every
 * end for each number of some last numbers, to an empty roll. "Other tables keep the old rule": so does present/following.
 */
static void every_end(unsigned last)
{
    static const long long refused[] = {84, 0, 0, 0};
    uint8_t bytes[SCHEDULED_SIZE];
    lohitunga_roll empty = lohitunga_roll_empty();
    lent = (void *)room_lend(&rooms.state, &empty, sizeof empty, AT_END, _Alignof(lohitunga_roll));
    for (unsigned number = 0; number <= last; number++)
        for (unsigned end = 0; end < 256; end++) {
            int wrong = end < number || end > last || end / 8 != number / 8;
            sequence[0] = (struct scheduled){0, (uint8_t)number, (uint8_t)end, (uint8_t)last};
            put_scheduled(sequence, bytes);
            lohitunga_roll_answer a = take(&empty, bytes);
            if (!wrong) {
                compare_answer(a, missing_after(sequence, 1), 1);
            } else {
                long long library[] = {a.number, (long long)a.place, a.complete, a.missing};
                as_defined("number place complete missing", library, refused, COUNT(library));
                must(memcmp(lent, &empty, sizeof empty) == 0, "a roll that refuses stays as it was");
            }
            met_word("ends of a schedule", wrong ? "84" : "taken", 1);
            put_scheduled_of(0x4E, sequence, bytes);
            compare_answer(take(&empty, bytes), last == 0 ? COMPLETE : number == 0, 1);
            met_word("ends of 0x4E", "taken", 1);
        }
    must(room_back(&rooms.state), "the canaries beside the roll stand");
}

static void every_short_one(void)
{
    for (unsigned last = 0; last <= LAST_MOST; last++)
        every_end(last);
    every_end(255);
    every_sequence("up to 5 of 39", 9, 9, FIVE, 39);
    every_sequence("up to 3 of 676", 0, LAST_MOST, 3, GIVEN_MOST);
}

/* Rounds of one schedule, from an empty roll on. */
static void one_schedule(struct dice *d)
{
    int count = (int)make_schedule(d, sequence);
    lohitunga_roll roll = lohitunga_roll_empty();
    for (int i = 0; i < count; i++) {
        uint8_t bytes[SCHEDULED_SIZE];
        put_scheduled(&sequence[i], bytes);
        enum placing p = below(d, PLACINGS);
        call_begins("lohitunga_roll_take", p);
        call_piece("roll", &roll, sizeof roll);
        call_piece("section", bytes, sizeof bytes);
        lent = (void *)room_lend(&rooms.state, &roll, sizeof roll, p, _Alignof(lohitunga_roll));
        lohitunga_roll_answer a = lohitunga_roll_take(lent, lend(bytes, sizeof bytes, p), sizeof bytes);
        unsigned missing = missing_after(sequence, i + 1);
        compare_answer(a, missing, i + 1);
        compare_answer(lohitunga_roll_ask(lent), missing, i + 1);
        roll = *lent;
        must(room_back(&rooms.state), "the canaries beside the roll stand");
        back();
        met_word("rounds", missing == COMPLETE ? "complete" : "missing", 1);
    }
}

/* A sequence has about forty sections. */
const struct kind kind_schedules = {"schedules", 32, prepare_schedules, every_short_one, one_schedule};
