/* The account of a stream over the library, for a PID that is chosen, and why packets were refused.
 *
 *     account [--why] [--pid PID]     packets on standard input; PID in hexadecimal, else that of the first packet
 *
 * The listing on standard output is that of the proved account program. With --why standard error tells of each
 * refusal how many packets it met and where the first of them begins, and what may explain them. It ends with 1 where
 * the stream cannot be read or the listing not written.
 */
#include <errno.h>
#include <inttypes.h>
#include <stdio.h>
#include <stdlib.h>
#include <string.h>

#include "lohitunga.h"
#include "lohitunga_text.h"

enum { FIRST_REFUSAL = LOHITUNGA_REFUSED_PACKET_SIZE, LAST_REFUSAL = LOHITUNGA_REFUSED_POINTER };
enum { PIDS = 8192, BEGINNING = 2048, SHOWN = 8 };

typedef struct refusals {
    uint64_t packets;
    uint64_t first; /* where the first of them begins in the stream */
} refusals;

typedef struct account {
    lohitunga_record record;
    uint64_t taken, repeated, refused, sections;
    refusals by_number[LAST_REFUSAL - FIRST_REFUSAL + 1];
    uint64_t of_pid[PIDS]; /* packets that 46 met, by their PID */
    uint8_t beginning[BEGINNING];
    size_t begun; /* how many bytes of the stream's beginning are kept */
} account;

static unsigned pid_of(const uint8_t *packet) { return (packet[1] & 0x1F) << 8 | packet[2]; }

static void fails(const char *what) {
    fprintf(stderr, "account: %s: %s\n", what, strerror(errno));
    exit(1);
}

static void take(account *all, const uint8_t *packet, size_t size, uint64_t at) {
    static uint8_t hold[LOHITUNGA_HOLD], out[LOHITUNGA_OUT];
    lohitunga_collect_answer answer =
        lohitunga_collect(&all->record, hold, sizeof hold, out, sizeof out, packet, size);
    if (answer.number) {
        refusals *met = &all->by_number[answer.number - FIRST_REFUSAL];
        if (met->packets++ == 0)
            met->first = at;
        if (answer.number == LOHITUNGA_REFUSED_OTHER_PID)
            all->of_pid[pid_of(packet)]++;
        all->refused++;
    } else if (answer.repeated)
        all->repeated++;
    else
        all->taken++;
    all->sections += answer.sections;
}

/* How many whole packets the stream has; the account of them and of a last piece. */
static uint64_t read_all(account *all, int pid) {
    uint8_t packet[LOHITUNGA_PACKET];
    uint64_t packets = 0;
    size_t size;
    while ((size = fread(packet, 1, sizeof packet, stdin)) == sizeof packet) {
        if (packets == 0)
            all->record = lohitunga_fresh(pid < 0 ? pid_of(packet) : (unsigned)pid);
        for (size_t i = 0; i < size && all->begun < BEGINNING; i++)
            all->beginning[all->begun++] = packet[i];
        take(all, packet, size, packets * LOHITUNGA_PACKET);
        packets++;
    }
    if (ferror(stdin))
        fails("standard input");
    if (packets > 0 && size > 0)
        take(all, packet, size, packets * LOHITUNGA_PACKET);
    return packets;
}

static void print(const account *all) {
    const lohitunga_record *r = &all->record;
    printf("PID %04X\n", r->pid);
    printf("taken %" PRIu64 "\nrepeated %" PRIu64 "\nrefused %" PRIu64 "\n", all->taken, all->repeated, all->refused);
    printf("pointer %" PRIu32 "\naccepted %" PRIu32 "\nrejected %" PRIu32 "\n", r->pointer, r->accepted, r->rejected);
    printf("broken %" PRIu32 "\nfiller %" PRIu32 "\nskipped %" PRIu32 "\n", r->broken, r->filler, r->skipped);
    printf("in hand %zu\n", r->in_hand);
    printf("sections %" PRIu64 "\n", all->sections);
}

/* Is there a byte 0x47 at this place and at each that follows by so many bytes, but for one? Five are no chance. */
static int synchronised(const account *all, size_t at, size_t size) {
    size_t found = 0, missed = 0;
    for (; at < all->begun; at += size)
        if (all->beginning[at] == 0x47)
            found++;
        else
            missed++;
    return found >= 5 && missed <= 1;
}

/* What the stream's beginning says of packets that do not begin with 0x47. */
static void explain_size(const account *all) {
    static const struct {
        size_t size;
        const char *what;
    } sizes[] = {{188, "leave out what is before"},
                 {204, "packets of 204 bytes, 188 and 16 that correct them: leave out the last 16 of each"},
                 {192, "packets of 192 bytes, a time of 4 and then 188: leave out the first 4 of each"}};
    for (size_t i = 0; i < sizeof sizes / sizeof *sizes; i++)
        for (size_t at = 0; at < sizes[i].size; at++)
            if (synchronised(all, at, sizes[i].size)) {
                if (at > 0 || sizes[i].size != LOHITUNGA_PACKET)
                    fprintf(stderr, "    0x47 stands at every %zu bytes from byte %zu on: %s\n", sizes[i].size, at,
                            sizes[i].what);
                return;
            }
}

static const char *carried(unsigned pid) {
    switch (pid) {
    case 0x0010: return " (NIT)";
    case 0x0011: return " (SDT, BAT)";
    case 0x0012: return " (EIT)";
    case 0x0014: return " (TDT, TOT)";
    case 0x1FFF: return " (null packets)";
    default: return "";
    }
}

/* The PIDs with the most packets, of those that 46 met. */
static void explain_pids(account *all) {
    size_t others = 0;
    for (size_t pid = 0; pid < PIDS; pid++)
        others += all->of_pid[pid] > 0;
    fprintf(stderr, "    the stream has %zu other PID%s, which --pid chooses:", others, others == 1 ? "" : "s");
    for (int shown = 0; shown < SHOWN; shown++) {
        size_t most = 0;
        for (size_t pid = 0; pid < PIDS; pid++)
            if (all->of_pid[pid] > all->of_pid[most])
                most = pid;
        if (all->of_pid[most] == 0)
            break;
        fprintf(stderr, "%s %04zX%s %" PRIu64, shown ? "," : "", most, carried(most), all->of_pid[most]);
        all->of_pid[most] = 0;
    }
    fprintf(stderr, "%s\n", others > SHOWN ? ", .." : "");
}

static void explain(account *all) {
    if (all->refused == 0)
        fprintf(stderr, "no packet was refused\n");
    for (uint32_t number = FIRST_REFUSAL; number <= LAST_REFUSAL; number++) {
        const refusals *met = &all->by_number[number - FIRST_REFUSAL];
        if (met->packets == 0)
            continue;
        fprintf(stderr, "%" PRIu32 ": %" PRIu64 " packet%s, the first at byte %" PRIu64 ". %s\n", number, met->packets,
                met->packets == 1 ? "" : "s", met->first, lohitunga_text(number));
        if (number == LOHITUNGA_REFUSED_SYNC_BYTE)
            explain_size(all);
        if (number == LOHITUNGA_REFUSED_OTHER_PID)
            explain_pids(all);
    }
}

static int usage(const char *name) {
    fprintf(stderr, "usage: %s [--why] [--pid PID], packets on standard input; PID in hexadecimal, 0000 to 1FFF\n",
            name);
    return 2;
}

int main(int words, char **word) {
    static account all;
    int why = 0, pid = -1;
    for (int i = 1; i < words; i++)
        if (strcmp(word[i], "--why") == 0)
            why = 1;
        else if (strcmp(word[i], "--pid") == 0 && i + 1 < words) {
            char *end;
            unsigned long given = strtoul(word[++i], &end, 16);
            if (*end || end == word[i] || given >= PIDS)
                return usage(word[0]);
            pid = (int)given;
        } else
            return usage(word[0]);

    uint64_t packets = read_all(&all, pid);
    if (packets == 0)
        printf("no packets\n");
    else
        print(&all);
    if (fflush(stdout) || ferror(stdout))
        fails("standard output");
    if (why && packets > 0)
        explain(&all);
    return 0;
}
