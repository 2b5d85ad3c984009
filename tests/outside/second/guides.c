/*
 * Schedules as a guide collects them, beside the library's roll:
 *     guides FILE         a file of `harness SEED COUNT --schedules FILE`
 * The EIT decoder of libdvbpsi, which nobody here wrote, is handed the same sections, a packet each, and gives out a schedule when
 * it takes it for complete. When that is stands below, by its own rule; where it does otherwise this fails. The rule is another
 * than document 02's, request (i): each way in which they differ is named and counted, and must be met.
 */
#include <stdbool.h>
#include <stdint.h>
#include <stdio.h>
#include <stdlib.h>
#include <string.h>
/* its headers want bool, the integers and each other before them */
#include <dvbpsi/dvbpsi.h>
#include <dvbpsi/psi.h>
#include <dvbpsi/descriptor.h>
#include <dvbpsi/demux.h>
#include <dvbpsi/eit.h>

#include "reader.h"

enum { MOST = 4096, SIZE = 18, PACKET = 188, PID = 0x12, TABLE_ID = 0x50, SERVICE_ID = 1 };

/* A section by its numbers and bytes, and what the library says behind it. */
struct scheduled { unsigned version, number, end, last; uint8_t bytes[SIZE]; unsigned complete, missing; };

static struct scheduled s[MOST];
static size_t count;

/* Reading the file */

static int next(void)
{
    if (!goes_on())
        return 0;
    count = get(2);
    if (count > MOST)
        exit(2);
    for (size_t i = 0; i < count; i++) {
        s[i].version = get(1);
        s[i].number = get(1);
        s[i].end = get(1);
        s[i].last = get(1);
        if (fread(s[i].bytes, 1, SIZE, file) != SIZE)
            exit(2);
        s[i].complete = get(1);
        s[i].missing = get(1);
    }
    return 1;
}

static void fails(const char *what, size_t at)
{
    printf("guides: libdvbpsi: %s\n  sections, each as version, number, end, last number:", what);
    for (size_t i = 0; i <= at; i++)
        printf(" %u,%u,%u,%u", s[i].version, s[i].number, s[i].end, s[i].last);
    printf("\nguides: FAILED\n");
    exit(1);
}

/* libdvbpsi */

static unsigned given_out;

static void gathered(void *data, dvbpsi_eit_t *eit)
{
    (void)data;
    given_out++;
    dvbpsi_eit_delete(eit);
}

static void wanted(dvbpsi_t *handle, uint8_t table_id, uint16_t extension, void *data)
{
    if (table_id == TABLE_ID && extension == SERVICE_ID && !dvbpsi_eit_attach(handle, table_id, extension, gathered, data))
        exit(2);
}

static void push(dvbpsi_t *handle, const uint8_t *section, unsigned counter)
{
    uint8_t packet[PACKET] = {0x47, 0x40, PID, (uint8_t)(0x10 | counter % 16), 0};
    memset(packet + 5, 0xFF, sizeof packet - 5);
    memcpy(packet + 5, section, SIZE);
    dvbpsi_packet_push(handle, packet);
}

/*
 * Its rule, in the words of its source: "wait until we have received a section_number twice or until we have a received a
 * section_number which is first_received_section_number - 1; if the first_received_section_number is 0, it's enough to wait until the
 * last_section_number has been received". The section of the last number must be there before, which makes it two of them in the
 * last case; of no other section it looks whether it came. What it gave out it does not collect again in the same version.
 */
struct rule { int building, has_last, gave; unsigned version, last, first, gave_version; };

static int gives_out(struct rule *r, const struct scheduled *p)
{
    if (r->building && (r->version != p->version || r->last != p->last))
        r->building = r->gave = 0;
    else if (!r->building && r->gave && r->gave_version == p->version)
        return 0;
    if (!r->building) {
        r->building = 1;
        r->has_last = 0;
        r->version = p->version;
        r->last = p->last;
        r->first = p->number;
        r->has_last = p->number == p->last;
        return 0;
    }
    int round = r->first > 0 ? p->number == r->first || p->number + 1 == r->first : p->number == r->last;
    if (round && r->has_last) {
        r->building = 0;
        r->gave = 1;
        r->gave_version = p->version;
        return 1;
    }
    r->has_last |= p->number == p->last;
    return 0;
}

/* How often the two agree that a schedule is complete, and how often they differ. */
static unsigned long agreed, holes, waits, never;

static void compare(int first_one)
{
    dvbpsi_t *handle = dvbpsi_new(NULL, DVBPSI_MSG_NONE);
    struct rule rule = {0};
    unsigned complete = 0, lasts = 0;
    if (!handle || !dvbpsi_AttachDemux(handle, wanted, NULL))
        exit(2);
    for (size_t i = 0; i < count; i++) {
        unsigned before = given_out;
        push(handle, s[i].bytes, (unsigned)i);
        int gives = gives_out(&rule, &s[i]);
        if (given_out - before != (unsigned)gives)
            fails(gives ? "does not give out what by its rule is complete" : "gives out what by its rule is not complete", i);
        holes += gives && !s[i].complete;
        agreed += gives && s[i].complete;
        waits += rule.building && s[i].complete;
        complete += s[i].complete;
        lasts += s[i].number == s[i].last;
        if (first_one && (gives != (i == 7) || s[i].complete || s[i].missing != 1))
            fails("the schedule of 0, 1, 8, 16 and 17 without its section 1 is not given out at the second 17 alone, or 1 is not missing", i);
    }
    never += complete > 0 && lasts == 0;
    dvbpsi_DetachDemux(handle);
    dvbpsi_delete(handle);
}

int main(int argc, char **argv)
{
    char word[8];
    unsigned long schedules = 0, sections = 0;
    if (argc != 2 || !(file = fopen(argv[1], "rb")) || fread(word, 1, 8, file) != 8 || memcmp(word, "schedule", 8) != 0) {
        fprintf(stderr, "usage: %s FILE\n", argv[0]);
        return 2;
    }
    while (next()) {
        compare(schedules == 0);
        schedules++;
        sections += count;
    }
    int met = agreed && holes && waits && never;
    printf("guides: libdvbpsi: known difference: of the sections 0, 1, 8, 16 and 17 of a schedule 1 never comes: it gives the schedule "
           "out with the second 17, where 1 is missing\n");
    printf("guides: libdvbpsi: known difference, %lu times: what it gives out has holes\n", holes);
    printf("guides: libdvbpsi: known difference, behind %lu sections: the schedule is complete, and it waits for another round\n", waits);
    printf("guides: libdvbpsi: known difference, %lu schedules: the last number is left out, and it never gives out what is complete\n", never);
    printf("guides: libdvbpsi: %lu sections of %lu schedules, %lu schedules given out that are complete: %s\n", sections, schedules, agreed,
           met ? "no other difference" : "FAILED: no other difference, but too few were met");
    return met ? 0 : 1;
}
