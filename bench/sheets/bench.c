/* Both turns of content sheets on EIT sections of so many entries, without descriptors and with as many as fit: how their time grows, beside copies of the
   section, by memcpy and byte by byte, the judge, which a turn to a sheet asks first, and the same sheet made in C with biTStream's accessors. */
#include "sections.h"
#include <bitstream/mpeg/psi.h>
#include <bitstream/dvb/si.h>
#include <string.h>

enum { ROUNDS = 41 };

__attribute__((optimize("no-tree-loop-distribute-patterns", "no-tree-vectorize"), noinline)) static void copy_bytes(uint8_t *to, const uint8_t *from, size_t n) {
    for (size_t i = 0; i < n; i++) to[i] = from[i];
}

static uint8_t *number(uint8_t *o, uint64_t v, int bytes) {
    while (bytes--) *o++ = (uint8_t)(v >> 8 * bytes);
    return o;
}

/* The sheet of an EIT section, validated first where that is asked for, its CRC_32 with it; no room is tested. It tells the sheet's size. */
static size_t by_bitstream(uint8_t *s, uint8_t *sheet, int validate) {
    if (validate && (!psi_validate(s) || !eit_validate(s))) return 0;
    uint8_t *end = s + PSI_HEADER_SIZE + psi_get_length(s) - PSI_CRC_SIZE, *o = sheet, *many;
    size_t events = 0;
    *o++ = psi_get_tableid(s);
    o = number(o, psi_get_tableidext(s), 2);
    *o++ = psi_get_version(s), *o++ = psi_get_current(s), *o++ = psi_get_section(s), *o++ = psi_get_lastsection(s);
    o = number(number(o, eit_get_tsid(s), 2), eit_get_onid(s), 2);
    *o++ = eit_get_segment_last_sec_number(s), *o++ = eit_get_last_table_id(s);
    many = o, o += 2;
    for (uint8_t *e = s + EIT_HEADER_SIZE; e < end; events++) {
        size_t n = eitn_get_desclength(e), descriptors = 0;
        uint8_t *d = eitn_get_descs(e) + DESCS_HEADER_SIZE;
        o = number(number(number(o, eitn_get_event_id(e), 2), eitn_get_start_time(e), 5), eitn_get_duration_bcd(e), 3);
        *o++ = eitn_get_running(e), *o++ = eitn_get_ca(e);
        for (size_t at = 0; at < n; at += DESC_HEADER_SIZE + desc_get_length(d + at)) descriptors++;
        o = number(o, descriptors, 2);
        memcpy(o, d, n);
        o += n, e += EIT_EVENT_SIZE + n;
    }
    number(many, events, 2);
    return (size_t)(o - sheet);
}

static double median(double *took) {
    qsort(took, ROUNDS, sizeof(double), order);
    return took[ROUNDS / 2];
}

static void row(size_t entries, int body) {
    static uint8_t s[SECTION], sheet[SHEET], same[SHEET], again[SECTION];
    enum { COPY, BYTES, JUDGE, PEER, PEER_JUDGED, FORTH, BACK, WAYS };
    static double took[WAYS][ROUNDS], m[WAYS];
    size_t size = make(s, entries, body), calls = 400000 / size;
    volatile size_t sink = 0;
    lohitunga_sheet_answer a = lohitunga_to_sheet(s, size, sheet, SHEET);
    lohitunga_section_answer b = lohitunga_to_section(sheet, a.size, again, SECTION);
    if (a.number || b.number || b.size != size || memcmp(s, again, size)) printf("%u, %u: not the same section\n", a.number, b.number), exit(1);
    if (by_bitstream(s, same, 1) != a.size || memcmp(sheet, same, a.size)) puts("biTStream: not the same sheet"), exit(1);
    for (int r = 0; r < ROUNDS; r++)
        for (int w = 0; w < WAYS; w++) {
            double start = now();
            for (size_t k = 0; k < calls; k++)
                switch (w) {
                case COPY: memcpy(again, s, size), sink += again[k % size]; break;
                case BYTES: copy_bytes(again, s, size), sink += again[k % size]; break;
                case JUDGE: sink += lohitunga_judge(s, size).number; break;
                case PEER: sink += by_bitstream(s, same, 0); break;
                case PEER_JUDGED: sink += by_bitstream(s, same, 1); break;
                case FORTH: sink += lohitunga_to_sheet(s, size, sheet, SHEET).size; break;
                case BACK: sink += lohitunga_to_section(sheet, a.size, again, SECTION).size; break;
                }
            took[w][r] = (now() - start) / (double)calls;
        }
    for (int w = 0; w < WAYS; w++) m[w] = median(took[w]);
    printf("%8zu %8zu %8zu %8.1f %8.1f %8.1f %10.1f %12.1f %10.1f %12.1f\n", entries, size, a.size, m[COPY], m[BYTES], m[JUDGE], m[FORTH], m[BACK], m[PEER], m[PEER_JUDGED]);
}

int main(void) {
    static const size_t entries[] = {10, 100, 339};
    printf("\n%8s %8s %8s %8s %8s %8s %10s %12s %10s %12s\n", "entries", "section", "sheet", "memcpy", "bytewise", "judge", "to a sheet", "to a section", "biTStream", "validated");
    for (size_t i = 0; i < 3; i++) row(entries[i], -1);
    puts("");
    row(10, 255);
    row(100, 26);
    row(290, 0);
    return 0;
}
