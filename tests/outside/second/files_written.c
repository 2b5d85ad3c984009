/* Descriptors that the library wrote, in files beside the fields that were given to it. */
#include "fields.h"
#include "files.h"
#include "kinds.h"

#include <inttypes.h>
#include <string.h>

/* What is given: fields in range, and a body of at most 255 bytes */

/* The name that tshark has for a field, and how it tells it. A field of the time of change has none of its own. */
struct told {
    const char *name;
    enum { PLAIN, LETTERS, TENS, S2_ALONE, CHANGE } how;
};

/* In the order of `writers`; its fields in the order of that table. */
static const struct layout {
    const char *texts[2], *lengths[2];
    struct told fields[FIELDS_MOST];
} layouts[COUNT(writers)] = {
    {.texts = {"mpeg_descr.net_name.name"}},
    {.fields = {{"mpeg_descr.svc_list.id", PLAIN}, {"mpeg_descr.svc_list.type", PLAIN}}},
    {.texts = {"mpeg_descr.stuffing"}},
    {.fields = {{"mpeg_descr.sat_delivery.freq", PLAIN}, {"mpeg_descr.sat_delivery.orbital_pos", PLAIN}, {"mpeg_descr.sat_delivery.symbol_rate", PLAIN},
                {"mpeg_descr.sat_delivery.west_east_flag", PLAIN}, {"mpeg_descr.sat_delivery.polarization", PLAIN},
                {"mpeg_descr.sat_delivery.modulation_system", PLAIN}, {"mpeg_descr.sat_delivery.roll_off", S2_ALONE},
                {"mpeg_descr.sat_delivery.modulation_type", PLAIN}, {"mpeg_descr.sat_delivery.fec_inner", PLAIN}}},
    {.fields = {{"mpeg_descr.cable_delivery.freq", PLAIN}, {"mpeg_descr.cable_delivery.sym_rate", PLAIN}, {"mpeg_descr.cable_delivery.fec_outer", PLAIN},
                {"mpeg_descr.cable_delivery.modulation", PLAIN}, {"mpeg_descr.cable_delivery.fec_inner", PLAIN}}},
    {.texts = {"mpeg_descr.svc.provider_name", "mpeg_descr.svc.svc_name"},
     .lengths = {"mpeg_descr.svc.provider_name_len", "mpeg_descr.svc.svc_name_len"},
     .fields = {{"mpeg_descr.svc.type", PLAIN}}},
    {.texts = {"mpeg_descr.short_evt.name", "mpeg_descr.short_evt.txt"},
     .lengths = {"mpeg_descr.short_evt.name_len", "mpeg_descr.short_evt.txt_len"},
     .fields = {{"mpeg_descr.short_evt.lang_code", LETTERS}}},
    {.fields = {{"mpeg_descr.content.nibble_lvl_1", PLAIN}, {"mpeg_descr.content.nibble_lvl_2", PLAIN}, {"mpeg_descr.content.user", PLAIN}}},
    {.fields = {{"mpeg_descr.parental_rating.country_code", LETTERS}, {"mpeg_descr.parental_rating.rating", PLAIN}}},
    {.fields = {{"mpeg_descr.local_time_offset.country_code", LETTERS}, {"mpeg_descr.local_time_offset.region_id", PLAIN},
                {"mpeg_descr.local_time_offset.offset", PLAIN}, {"mpeg_descr.local_time_offset.time_of_change", CHANGE}, {NULL, PLAIN}, {NULL, PLAIN},
                {NULL, PLAIN}, {NULL, PLAIN}, {"mpeg_descr.local_time_offset.next_time_offset", PLAIN}}},
    {.fields = {{"mpeg_descr.terr_delivery.centre_freq", TENS}, {"mpeg_descr.terr_delivery.bandwidth", PLAIN}, {"mpeg_descr.terr_delivery.priority", PLAIN},
                {"mpeg_descr.terr_delivery.time_slicing_ind", PLAIN}, {"mpeg_descr.terr_delivery.mpe_fec_ind", PLAIN},
                {"mpeg_descr.terr_delivery.constellation", PLAIN}, {"mpeg_descr.terr_delivery.hierarchy_information", PLAIN},
                {"mpeg_descr.terr_delivery.code_rate_hp_stream", PLAIN}, {"mpeg_descr.terr_delivery.code_rate_lp_stream", PLAIN},
                {"mpeg_descr.terr_delivery.guard_interval", PLAIN}, {"mpeg_descr.terr_delivery.transmission_mode", PLAIN},
                {"mpeg_descr.terr_delivery.other_freq_flag", PLAIN}}},
};

static const struct layout *layout_of(const struct given *g) { return &layouts[g->w - writers]; }

static int32_t any_letters(struct dice *d) { return (int32_t)(between(d, 'A', 'Z') << 16 | between(d, 'A', 'Z') << 8 | between(d, 'A', 'Z')); }

/* Where the dice are tame, texts but for stuffing are small letters, and codes of three characters capital ones. */
static void make_short_given(struct dice *d, struct given *g, const struct writer *w)
{
    do
        make_given(d, g, w);
    while (body_of(g) > BODY_MOST);
    if (!d->tame)
        return;
    for (size_t i = 0; i < g->size && w->tag != LOHITUNGA_TAG_STUFFING; i++)
        g->bytes[i] = (uint8_t)('a' + g->bytes[i] % 26);
    if (layout_of(g)->fields[0].how != LETTERS)
        return;
    g->fields[0] = any_letters(d);
    for (size_t i = 0; i < g->count; i += w->field_count)
        g->numbers[i] = any_letters(d);
}

/* What is written */

struct descriptor {
    struct given given;
    uint8_t bytes[LOHITUNGA_DESCRIPTOR_ROOM];
    size_t size;
};

static lohitunga_write_answer write_system(const struct given *g, uint8_t *room, size_t n)
{
    const long long *f = g->fields;
    uint8_t b[FIELDS_MOST];
    for (unsigned i = 0; i < FIELDS_MOST; i++)
        b[i] = (uint8_t)f[i];
    lohitunga_satellite satellite = {{(uint32_t)f[0]}, (uint32_t)f[1], (uint32_t)f[2], b[3], b[4], b[5], b[6], b[7], b[8]};
    lohitunga_cable cable = {{(uint32_t)f[0]}, (uint32_t)f[1], b[2], b[3], b[4]};
    lohitunga_terrestrial terrestrial = {{(uint32_t)f[0]}, b[1], b[2], b[3], b[4], b[5], b[6], b[7], b[8], b[9], b[10], b[11]};
    switch (g->w->tag) {
    case LOHITUNGA_TAG_SATELLITE: return lohitunga_write_satellite(satellite, room, n);
    case LOHITUNGA_TAG_CABLE: return lohitunga_write_cable(cable, room, n);
    default: return lohitunga_write_terrestrial(terrestrial, room, n);
    }
}

static lohitunga_write_answer write_given(const struct given *g, uint8_t *room, size_t n)
{
    lohitunga_service service = {(uint8_t)g->fields[0], g->parts[0], g->parts[1]};
    lohitunga_short_event event = {(uint32_t)g->fields[0], g->parts[0], g->parts[1]};
    switch (g->w->tag) {
    case LOHITUNGA_TAG_NETWORK_NAME: return lohitunga_write_network_name(g->parts[0], g->bytes, g->size, room, n);
    case LOHITUNGA_TAG_STUFFING: return lohitunga_write_stuffing(g->parts[0], g->bytes, g->size, room, n);
    case LOHITUNGA_TAG_SERVICE: return lohitunga_write_service(service, g->bytes, g->size, room, n);
    case LOHITUNGA_TAG_SHORT_EVENT: return lohitunga_write_short_event(event, g->bytes, g->size, room, n);
    case LOHITUNGA_TAG_SERVICE_LIST: return lohitunga_write_service_list(g->numbers, g->count, room, n);
    case LOHITUNGA_TAG_CONTENT: return lohitunga_write_content(g->numbers, g->count, room, n);
    case LOHITUNGA_TAG_PARENTAL_RATING: return lohitunga_write_parental_rating(g->numbers, g->count, room, n);
    case LOHITUNGA_TAG_LOCAL_TIME_OFFSET: return lohitunga_write_local_time_offset(g->numbers, g->count, room, n);
    default: return write_system(g, room, n);
    }
}

/* Whether the library writes it, as it must. */
static int written(struct dice *d, struct descriptor *to, const struct writer *w, const char *name, uint64_t number)
{
    make_short_given(d, &to->given, w);
    size_t size = 2 + body_of(&to->given);
    lohitunga_write_answer a = write_given(&to->given, to->bytes, sizeof to->bytes);
    to->size = a.size;
    if (a.number == 0 && a.size == size)
        return 1;
    fprintf(stderr, "%s: number %" PRIu64 ": %s: refused with %u, or %zu bytes where %zu are to be\n", name, number, w->name, a.number, a.size, size);
    return 0;
}

/*
 * The word "written "; then descriptors: the tag 1, how many numbers 2, the sizes of two texts 1 and 1, the descriptor's size 2; the numbers, 4
 * each; the texts; the descriptor.
 */
int write_written(uint64_t seed, uint64_t count, const char *name)
{
    static struct descriptor k;
    const struct given *g = &k.given;
    if (!opened(name))
        return 2;
    fputs("written ", file);
    for (uint64_t i = 0; i < count; i++) {
        struct dice d = dice_of(seed, 107, i);
        if (!written(&d, &k, &writers[i % COUNT(writers)], name, i))
            return 1;
        size_t numbers = g->w->form == LIST ? g->count : g->w->field_count;
        put(g->w->tag, 1);
        put(numbers, 2);
        for (unsigned t = 0; t < 2; t++)
            put(t < g->w->texts ? g->parts[t].size : 0, 1);
        put(k.size, 2);
        for (size_t n = 0; n < numbers; n++)
            put(g->w->form == LIST ? (uint64_t)g->numbers[n] : (uint64_t)g->fields[n], 4);
        for (unsigned t = 0; t < g->w->texts; t++)
            fwrite(g->bytes + g->parts[t].start, 1, g->parts[t].size, file);
        fwrite(k.bytes, 1, k.size, file);
    }
    return closed(name);
}

/* Written descriptors in tables */

static void say_field(const struct told *t, const long long *row, unsigned k)
{
    lohitunga_moment change = {(uint16_t)row[MJD], (uint8_t)row[MJD + 1], (uint8_t)row[MJD + 2], (uint8_t)row[SECOND], (uint8_t)row[UNDEFINED]};
    if (t->how == LETTERS)
        say_letters(t->name, (uint32_t)row[k]);
    else if (t->how == CHANGE)
        say_moment(t->name, change);
    else if (t->name && (t->how != S2_ALONE || row[MODULATION_SYSTEM] == 1))
        say(t->name, (t->how == TENS ? 10 : 1) * row[k]);
}

/* The fields that were given, and nothing out of the bytes that were written. */
static void say_given(const struct given *g)
{
    const struct layout *l = layout_of(g);
    size_t each = g->w->field_count, rows = g->w->form == LIST ? g->count / each : 1;
    say("mpeg_descr.tag", g->w->tag);
    say("mpeg_descr.len", (long long)body_of(g));
    for (size_t i = 0; i < rows; i++) {
        long long row[FIELDS_MOST] = {0};
        for (unsigned k = 0; k < each; k++)
            row[k] = g->w->form == LIST ? g->numbers[i * each + k] : g->fields[k];
        for (unsigned k = 0; k < each; k++)
            say_field(&l->fields[k], row, k);
    }
    for (unsigned i = 0; i < g->w->texts; i++) {
        if (l->lengths[i])
            say(l->lengths[i], (long long)g->parts[i].size);
        if (g->parts[i].size > 0)
            say_bytes(l->texts[i], g->bytes + g->parts[i].start, g->parts[i].size);
    }
}

/* A table as its content sheet begins, and an entry of it, each up to the number of its descriptors; and the tags that its loops have. */
static const struct table {
    uint16_t pid;
    size_t head_size, entry_size;
    uint8_t head[13], entry[12];
    const char *top_tags, *entry_tags;
} tables[] = {
    {LOHITUNGA_PID_NIT, 7, 4, {LOHITUNGA_TABLE_NIT_ACTUAL, 0, 0x85, 9, 1, 0, 0}, {4, 0x13, 0, 0x85}, "\x40\x42", "\x41\x42\x43\x44\x5A"},
    {LOHITUNGA_PID_SDT_BAT, 9, 6, {LOHITUNGA_TABLE_SDT_ACTUAL, 4, 0x13, 9, 1, 0, 0, 0, 0x85}, {0x0F, 0xA1, 0, 1, 4, 0}, NULL, "\x48"},
    {LOHITUNGA_PID_EIT, 13, 12, {LOHITUNGA_TABLE_EIT_ACTUAL, 0x0F, 0xA1, 9, 1, 0, 0, 4, 0x13, 0, 0x85, 0, LOHITUNGA_TABLE_EIT_ACTUAL},
     {0, 1, 0xC0, 0x79, 0x12, 0x45, 0, 1, 0x45, 0x30, 4, 0}, NULL, "\x4D\x54\x55"},
    {LOHITUNGA_PID_TDT_TOT, 6, 0, {LOHITUNGA_TABLE_TOT, 0xC0, 0x79, 0x12, 0x45, 0}, {0}, "\x58", NULL},
};

/* So many descriptors to a loop, entries to a table, and bytes to all descriptors, at most: a section of any of the tables has room for them. */
enum { LOOP_MOST = 4, ENTRIES_MOST = 4, LOOPS_MOST = 1 + ENTRIES_MOST, LOOP_BYTES_MOST = 900 };

static struct {
    uint8_t bytes[LOHITUNGA_SHEET_ROOM];
    size_t size, left;
    struct descriptor descriptors[LOOPS_MOST * LOOP_MOST];
    size_t count;
} sheet;

static void add(const void *bytes, size_t size)
{
    memcpy(sheet.bytes + sheet.size, bytes, size);
    sheet.size += size;
}

/* A loop of descriptors of these tags, behind their number. */
static int add_loop(struct dice *d, const char *tags, const char *name, uint64_t number)
{
    size_t at = sheet.size + 1, wanted = between(d, 1, LOOP_MOST);
    add("\0\0", 2);
    while (wanted-- > 0) {
        struct descriptor *k = &sheet.descriptors[sheet.count];
        const struct writer *w = writers;
        for (uint8_t tag = (uint8_t)tags[below(d, (unsigned)strlen(tags))]; w->tag != tag;)
            w++;
        if (!written(d, k, w, name, number))
            return 0;
        if (k->size > sheet.left)
            return 1;
        add(k->bytes, k->size);
        sheet.left -= k->size;
        sheet.count++;
        sheet.bytes[at]++;
    }
    return 1;
}

static int make_table(struct dice *d, const struct table *t, const char *name, uint64_t number)
{
    uint8_t entries[2] = {0, (uint8_t)between(d, 1, ENTRIES_MOST)};
    int right = 1;
    sheet.size = sheet.count = 0;
    sheet.left = LOOP_BYTES_MOST;
    add(t->head, t->head_size);
    if (t->top_tags)
        right = add_loop(d, t->top_tags, name, number);
    if (t->entry_tags)
        add(entries, 2);
    for (int i = 0; i < entries[1] && t->entry_tags && right; i++) {
        add(t->entry, t->entry_size);
        right = add_loop(d, t->entry_tags, name, number);
    }
    return right;
}

/*
 * As write_fields does, but that the fields are those which the descriptors were written from, and that a line `packets` has the library's
 * packets of the section: a descriptor goes the way that it goes at a desk, by a sheet and a section.
 */
int write_tables(uint64_t seed, uint64_t count, const char *name)
{
    static uint8_t section[LOHITUNGA_SECTION_ROOM], room[32 * LOHITUNGA_PACKET], counters[COUNT(tables)];
    if (!opened(name))
        return 2;
    for (uint64_t i = 0; i < count; i++) {
        struct dice d = dice_of(seed, 108, i);
        unsigned which = (unsigned)(i % COUNT(tables));
        d.tame = 1;
        if (!make_table(&d, &tables[which], name, i))
            return 1;
        lohitunga_section_answer a = lohitunga_to_section(sheet.bytes, sheet.size, section, sizeof section);
        lohitunga_judge_answer b = lohitunga_judge(section, a.size);
        lohitunga_packets_answer c = lohitunga_packets(tables[which].pid, counters[which], section, a.size, &a.size, 1, room, sizeof room);
        if (a.number || b.number || c.number) {
            fprintf(stderr, "%s: table %" PRIu64 " is refused: sheet %u, section %u, packets %u\n", name, i, a.number, b.number, c.number);
            return 1;
        }
        counters[which] = (uint8_t)((counters[which] + c.packets) % 16);
        say_bytes("section", section, a.size);
        fprintf(file, "number %u %zu\n", b.number, b.place);
        say_bytes("packets", room, c.packets * LOHITUNGA_PACKET);
        for (size_t k = 0; k < sheet.count; k++)
            say_given(&sheet.descriptors[k].given);
        say("read", 1);
    }
    return closed(name);
}
