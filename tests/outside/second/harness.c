/*
 * The library against the second implementation:
 *     harness SEED COUNT [KIND [FIRST]]      COUNT cases of each kind, or of one, from case number FIRST on
 *     harness --kinds                        the kinds, by name
 *     harness SEED COUNT --sections FILE     COUNT sections with the library's answers, for other parsers to judge
 *     harness SEED COUNT --packets FILE      COUNT packets, and what the library hears of discontinuity_indicator
 *     harness SEED COUNT --chains FILE       COUNT damaged streams, and the sections that the library accepts and rejects in them
 *     harness SEED COUNT --lists FILE        COUNT lists of sections, and the library's packets of each
 *     harness SEED COUNT --schedules FILE    COUNT schedules, round by round, and what the library says is missing behind each section
 *     harness SEED COUNT --fields FILE       COUNT sections with the library's readings of them
 *     harness SEED COUNT --written FILE      COUNT descriptors that the library wrote, and the fields that it was given
 *     harness SEED COUNT --tables FILE       COUNT sections with such descriptors, in the library's packets
 *     harness SEED COUNT --streams FOLDER    COUNT streams of packets, each with its account by the second implementation
 *     harness --muxed FILE                   packets by libavformat, collected and written again
 * It ends with 0; with 1 at the first difference; with 3 where there is none but some answer of document 01 was never met.
 */
#include "kinds.h"
#include "tally.h"

#include <inttypes.h>
#include <stdio.h>
#include <stdlib.h>
#include <string.h>

/* Every kind, each of its own file kinds_NAME.c. Its place in the table goes into the dice of its cases: a new one comes last. */
#define KINDS(KIND) \
    KIND(bytes) \
    KIND(sections) \
    KIND(packets) \
    KIND(descriptors) \
    KIND(times) \
    KIND(rolls) \
    KIND(sheets) \
    KIND(digits) \
    KIND(writer) \
    KIND(fades) \
    KIND(schedules) \
    KIND(writers)

#define DECLARED(name) extern const struct kind kind_##name;
#define LISTED(name) &kind_##name,
KINDS(DECLARED)
static const struct kind *const kinds[] = {KINDS(LISTED)};

int write_sections(uint64_t seed, uint64_t count, const char *name);
int write_packets(uint64_t seed, uint64_t count, const char *name);
int write_chains(uint64_t seed, uint64_t count, const char *name);
int write_lists(uint64_t seed, uint64_t count, const char *name);
int write_schedules(uint64_t seed, uint64_t count, const char *name);
int write_fields(uint64_t seed, uint64_t count, const char *name);
int write_written(uint64_t seed, uint64_t count, const char *name);
int write_tables(uint64_t seed, uint64_t count, const char *name);
int read_muxed(const char *name);
int write_streams(uint64_t seed, uint64_t count, const char *folder);

static void make_rooms(void)
{
    room_make(&rooms.input, SHEET_MOST, 0);
    room_make(&rooms.hold, 8192, 1);
    room_make(&rooms.out, 12288, 1);
    room_make(&rooms.state, 4096, 1);
    room_make(&rooms.sizes, LIST_MOST * sizeof(size_t), 0);
    room_make(&rooms.packets, LIST_PACKETS * 188 + 512, 1);
    watch_room("the input", &rooms.input);
    watch_room("the hold", &rooms.hold);
    watch_room("the out room", &rooms.out);
    watch_room("the record or roll", &rooms.state);
    watch_room("the sizes", &rooms.sizes);
    watch_room("the packets", &rooms.packets);
}

static void run_kind(const struct kind *k, unsigned which, uint64_t seed, uint64_t first, uint64_t count)
{
    case_begins(seed, k->name, 0);
    if (k->once)
        k->once();
    for (uint64_t i = first; i < first + (count + k->share - 1) / k->share; i++) {
        struct dice d = dice_of(seed, which, i);
        case_begins(seed, k->name, i);
        k->one(&d);
    }
    must(room_whole(&rooms.input) && room_whole(&rooms.hold) && room_whole(&rooms.out) && room_whole(&rooms.state) &&
         room_whole(&rooms.sizes) && room_whole(&rooms.packets), "every canary stands at the end");
}

int main(int argc, char **argv)
{
    if (argc == 2 && strcmp(argv[1], "--kinds") == 0) {
        for (unsigned i = 0; i < COUNT(kinds); i++)
            puts(kinds[i]->name);
        return 0;
    }
    if (argc == 3 && strcmp(argv[1], "--muxed") == 0)
        return read_muxed(argv[2]);
    if (argc < 3) {
        fprintf(stderr, "usage: %s SEED COUNT [KIND [FIRST] | --sections FILE | --packets FILE | --chains FILE | --lists FILE |"
                        " --schedules FILE | --fields FILE | --written FILE | --tables FILE | --streams FOLDER]\n", argv[0]);
        return 2;
    }
    uint64_t seed = strtoull(argv[1], NULL, 0), count = strtoull(argv[2], NULL, 0);
    const char *only = argc > 3 ? argv[3] : NULL;
    uint64_t first = argc > 4 ? strtoull(argv[4], NULL, 0) : 0;
    if (argc == 5 && strcmp(only, "--sections") == 0)
        return write_sections(seed, count, argv[4]);
    if (argc == 5 && strcmp(only, "--packets") == 0)
        return write_packets(seed, count, argv[4]);
    if (argc == 5 && strcmp(only, "--chains") == 0)
        return write_chains(seed, count, argv[4]);
    if (argc == 5 && strcmp(only, "--lists") == 0)
        return write_lists(seed, count, argv[4]);
    if (argc == 5 && strcmp(only, "--schedules") == 0)
        return write_schedules(seed, count, argv[4]);
    if (argc == 5 && strcmp(only, "--fields") == 0)
        return write_fields(seed, count, argv[4]);
    if (argc == 5 && strcmp(only, "--written") == 0)
        return write_written(seed, count, argv[4]);
    if (argc == 5 && strcmp(only, "--tables") == 0)
        return write_tables(seed, count, argv[4]);
    if (argc == 5 && strcmp(only, "--streams") == 0)
        return write_streams(seed, count, argv[4]);

    make_rooms();
    watch();
    printf("second: seed %" PRIu64 ", %" PRIu64 " cases of each kind\n", seed, count);
    fflush(stdout);
    unsigned kinds_run = 0;
    for (unsigned i = 0; i < COUNT(kinds); i++) {
        if (only && strcmp(only, kinds[i]->name) != 0)
            continue;
        kinds[i]->prepare();
        run_kind(kinds[i], i, seed, first, count);
        kinds_run++;
    }
    if (kinds_run == 0) {
        fprintf(stderr, "%s: no kind of this name\n", only);
        return 2;
    }
    int all = print_met();
    if (!all && argc > 4)
        all = 1; /* single cases are asked for, and they need not meet everything */
    printf(all ? "second: no difference\n" : "second: FAILED: no difference, but not every answer was met\n");
    return all ? 0 : 3;
}
