/* Taking sections into a roll and asking it, over the calls for C. It is compiled once for each of two commits, with the commit's header and archive, for
   both have the same names, and a roll may have other fields in each.
       bench ROUNDS            a line for each case: its name, and nanoseconds a call, the median of the rounds
       bench CASE TIMES        one case, gone over so often, to be counted: its calls
   To go over a case is to copy its roll and to call 256 times with the copy. What is lent stays in the processor's caches, sections of 18 bytes in the
   first, those of 1,024 bytes in the second. */
#include "../rounds.h"
#include "lohitunga.h"
#include <string.h>

enum { CALLS = 256, MOST = 1024, NUMBER = 1 << 16, COMPLETE = 1 << 8 };

/* Sections 0 to 255 are taken in order: by a roll that goes on and has section 0, by one of another sub-table, or each with a version that starts the roll
   afresh. Or nothing is taken, and a complete roll is asked. */
static const struct lent {
    const char *name;
    enum { GOES_ON, ANOTHER, AFRESH, ASKED } way;
    uint8_t table_id;
    size_t size; /* of a section */
    uint8_t last;
} all[] = {
    {"EIT-18", GOES_ON, LOHITUNGA_TABLE_EIT_SCHEDULE_ACTUAL, 18, 255},
    {"EIT-1024", GOES_ON, LOHITUNGA_TABLE_EIT_SCHEDULE_ACTUAL, 1024, 255},
    {"SDT-15", GOES_ON, LOHITUNGA_TABLE_SDT_ACTUAL, 15, 255},
    {"SDT-1000", GOES_ON, LOHITUNGA_TABLE_SDT_ACTUAL, 1000, 255},
    {"another-18", ANOTHER, LOHITUNGA_TABLE_EIT_SCHEDULE_ACTUAL, 18, 255},
    {"afresh-18", AFRESH, LOHITUNGA_TABLE_EIT_SCHEDULE_ACTUAL, 18, 255},
    {"ask-255", ASKED, LOHITUNGA_TABLE_EIT_SCHEDULE_ACTUAL, 18, 255},
    {"ask-1", ASKED, LOHITUNGA_TABLE_EIT_SCHEDULE_ACTUAL, 18, 1},
};
enum { CASES = sizeof all / sizeof *all };

/* Of the case that is gone over: its roll before the first call, and its sections, end to end. */
static _Alignas(64) lohitunga_roll first;
static _Alignas(64) uint8_t sections[CALLS * MOST];

/* A current section of that number: the header alone, or an entry with stuffing descriptors up to the CRC_32. A schedule's segment ends at its eighth
   section, or at the last. */
static void make(uint8_t *s, const struct lent *c, int number, int extension, int version) {
    int eit = c->table_id != LOHITUNGA_TABLE_SDT_ACTUAL;
    size_t end = c->size - 4, at = eit ? 14 : 11;
    memset(s, 0, c->size);
    s[0] = c->table_id;
    s[1] = 0xF0 | (uint8_t)((c->size - 3) >> 8);
    s[2] = (uint8_t)(c->size - 3);
    s[4] = (uint8_t)extension;
    s[5] = 0xC1 | (uint8_t)(version << 1);
    s[6] = (uint8_t)number;
    s[7] = c->last;
    if (eit) s[12] = (number | 7) < c->last ? (uint8_t)(number | 7) : c->last, s[13] = c->table_id;
    if (at < end) {
        at += eit ? 12 : 5;
        s[at - 2] = (uint8_t)((end - at) >> 8);
        s[at - 1] = (uint8_t)(end - at);
    }
    while (at < end) {
        size_t body = end - at > 257 ? 200 : end - at - 2;
        s[at] = LOHITUNGA_TAG_STUFFING;
        s[at + 1] = (uint8_t)body;
        at += 2 + body;
    }
    uint32_t crc = lohitunga_crc32(s, end);
    for (size_t i = 0; i < 4; i++) s[end + i] = (uint8_t)(crc >> (24 - 8 * i));
}

/* All that an answer says, in a number; and what it has to say at that call. */
static inline uint64_t told(lohitunga_roll_answer a) { return (uint64_t)a.number * NUMBER + a.complete * COMPLETE + a.missing; }

static uint64_t right(const struct lent *c, int call) {
    if (c->way == ANOTHER) return (uint64_t)LOHITUNGA_REFUSED_OTHER_SUB_TABLE * NUMBER;
    if (c->way == AFRESH) return call == 0;
    return c->way == ASKED || call == c->last ? COMPLETE : (uint64_t)call + 1;
}

/* Makes roll and sections, and goes over them once, each answer being looked at. It tells the sum of the answers, or ends the program. */
static uint64_t ready(const struct lent *c) {
    uint64_t sum = 0;
    first = lohitunga_roll_empty();
    for (int n = 0; n <= (c->way == GOES_ON || c->way == AFRESH ? 0 : c->last); n++) {
        make(sections, c, n, 1, 0);
        if (lohitunga_roll_take(&first, sections, c->size).number) fprintf(stderr, "%s: section %d is not taken\n", c->name, n), exit(1);
    }
    for (int n = 0; n < CALLS && c->way != ASKED; n++)
        make(sections + (size_t)n * c->size, c, n, c->way == ANOTHER ? 2 : 1, c->way == AFRESH && n % 2 == 0);
    lohitunga_roll roll = first;
    for (int n = 0; n < CALLS; n++) {
        lohitunga_roll_answer a = c->way == ASKED ? lohitunga_roll_ask(&roll) : lohitunga_roll_take(&roll, sections + (size_t)n * c->size, c->size);
        if (told(a) != right(c, n))
            fprintf(stderr, "%s, call %d: number %u, complete %u, missing %u\n", c->name, n, a.number, a.complete, a.missing), exit(1);
        sum += told(a);
    }
    return sum;
}

/* Goes over the case once and tells the sum of the answers. */
static uint64_t run(const struct lent *c) {
    static _Alignas(64) lohitunga_roll roll;
    const uint8_t *s = sections;
    size_t size = c->size;
    uint64_t sum = 0;
    roll = first;
    if (c->way == ASKED)
        for (int n = 0; n < CALLS; n++) sum += told(lohitunga_roll_ask(&roll));
    else
        for (int n = 0; n < CALLS; n++, s += size) sum += told(lohitunga_roll_take(&roll, s, size));
    return sum;
}

/* Asking takes so little time that a round has more of it. */
static int time_case(const struct lent *c, int times) {
    static double took[MOST_ROUNDS];
    uint64_t again = 1 + (c->way == ASKED ? 800000 : 50000) / CALLS, sum = 0, once = ready(c);
    for (int r = 0; r < times; r++) {
        double start = now();
        for (uint64_t k = 0; k < again; k++) sum += run(c);
        took[r] = (now() - start) / CALLS / (double)again;
    }
    if (sum != once * again * (uint64_t)times) return fprintf(stderr, "%s: other answers than before\n", c->name), 1;
    qsort(took, (size_t)times, sizeof *took, order);
    printf("%s %.2f\n", c->name, took[times / 2]);
    return 0;
}

int main(int argc, char **argv) {
    if (lohitunga_interface() != LOHITUNGA_INTERFACE) return fprintf(stderr, "header and archive differ\n"), 1;
    if (argc == 3) {
        const struct lent *c = all;
        while (c < all + CASES && strcmp(c->name, argv[1])) c++;
        if (c == all + CASES) return 2;
        uint64_t once = ready(c);
        for (int k = atoi(argv[2]); k > 0; k--)
            if (run(c) != once) return 1;
        return printf("%d\n", CALLS) < 0;
    }
    int times = times_of(argc, argv, 9), failed = 0;
    for (int i = 0; i < CASES && !failed; i++) failed = time_case(all + i, times);
    return failed;
}
