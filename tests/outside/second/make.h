/* Cases from a seed: sections, sheets, descriptors, packets; good ones, and damaged ones. */
#ifndef MAKE_H
#define MAKE_H

#include <stddef.h>
#include <stdint.h>

/* Dice */

/* With `tame` every descriptor and time is one that any parser can read to its end: no field out of range, no tag that is not ours or private. */
struct dice { uint64_t state; int tame; };

/* The dice of one case: it depends on the run's seed, the kind and the case's number alone, so a case can be made again. */
struct dice dice_of(uint64_t seed, unsigned kind, uint64_t number);
uint64_t dice_any(struct dice *d);
unsigned below(struct dice *d, unsigned n);                        /* 0 to n - 1 */
unsigned between(struct dice *d, unsigned from, unsigned to);      /* both ends included */
int one_in(struct dice *d, unsigned n);
void fill(struct dice *d, uint8_t *to, size_t n);

/* Descriptors */

extern const uint8_t typed_tags[11];

/* A descriptor of at most 257 bytes with the layout of its tag. Most fields are in range; some, if `wild`, are not. */
size_t make_typed(struct dice *d, uint8_t tag, uint8_t *to, int wild);

/* The same, then perhaps damaged: cut, lengthened, another tag or length, bytes changed. */
size_t make_reading_case(struct dice *d, uint8_t tag, uint8_t *to);

/* Any descriptor of at most `most` bytes, which is 2 or more: typed, or with a tag and bytes of any kind. */
size_t make_descriptor(struct dice *d, uint8_t *to, size_t most);

/* Sections */

enum { SECTION_MOST = 8192, LENGTHS_MOST = 1024, TAGS_MOST = 4096 };

/* A section with the places of its loop lengths and of its descriptors' tags. */
struct section {
    uint8_t bytes[SECTION_MOST];
    size_t size;
    unsigned lengths[LENGTHS_MOST], length_count;
    unsigned tags[TAGS_MOST], tag_count;
};

/* Sets CRC_32, but for a TDT; and section_length too. */
void put_crc_right(struct section *s);
void put_length_and_crc_right(struct section *s);

/* A section that stands, of any of the six tables or of a table_id given. */
void make_section(struct dice *d, struct section *s);
void make_section_of(struct dice *d, struct section *s, uint8_t table_id, unsigned most_length);

/* An EIT section that stands, of just so many bytes, 32 or more. */
void make_section_of_size(struct dice *d, struct section *s, size_t size);

/* Damages a section that stands, and its size stays: by each number that a whole one can be refused with. */
void spoil(struct dice *d, struct section *s);

/* A section that stands, or damaged, or bytes of any kind. */
void make_section_case(struct dice *d, struct section *s);

/* The same, of 3 to 4,096 bytes, as many as its head declares; few of more than 400 unless `large`. It does not begin with 0xFF. */
void make_whole(struct dice *d, struct section *s, int large);

/* Schedules */

/* A section of a schedule, by its version and the three numbers that say where it stands in it. */
struct scheduled { uint8_t version, number, end, last; };

enum { SEGMENTS = 32, SCHEDULED_SIZE = 18, SCHEDULE_MOST = 640 };

/* The smallest such section, which has no event: current, of one and the same service; and of table_id 0x50, or any EIT's. */
void put_scheduled(const struct scheduled *p, uint8_t *to);
void put_scheduled_of(uint8_t table_id, const struct scheduled *p, uint8_t *to);

/* An end of this segment that 84 does not refuse, if it begins at or below the last number. */
uint8_t any_end(struct dice *d, unsigned segment, unsigned last);

/*
 * Sections as a receiver meets them, none of which 84 refuses: two or three rounds of one schedule, from any number on or in any
 * order, some lost; now and then an end, the last number or the version changes. How many there are.
 */
size_t make_schedule(struct dice *d, struct scheduled *to);

/* Sheets */

enum { SHEET_MOST = 24576 };

size_t make_sheet_case(struct dice *d, uint8_t *to);

/* Packets */

enum { PACKET_MOST = 512, QUEUE_MOST = 16384 };

/* A sender: sections end to end, waiting to be put into packets, with the places where one begins. */
struct sender {
    unsigned pid, counter;
    uint8_t queue[QUEUE_MOST];
    uint8_t begins[QUEUE_MOST];
    size_t size, sent;
    unsigned trouble;   /* one packet in so many is disturbed; 0 for none */
    int large;          /* whether sections of some thousand bytes come */
    int splices;        /* whether adaptation fields, and counters other than the next one, come often */
    unsigned marks;     /* one adaptation field in so many has discontinuity_indicator set; 0 for none */
};

void make_sender(struct dice *d, struct sender *s);

/* A packet with the start flag and this pointer, full of short sections to its last byte; all stand, or only some. */
void make_full_packet(struct dice *d, unsigned pid, unsigned counter, unsigned pointer, uint8_t *to);

/* The next packet, perhaps disturbed, lost, repeated or of another size; its size. */
size_t make_packet(struct dice *d, struct sender *s, uint8_t *to);

/* Lists of sections, for the writer */

/* So many bytes, and sections, at most; a list that can be sent takes so many packets at most, each but the last with 183 bytes or more. */
enum { LIST_BYTES = SHEET_MOST, LIST_MOST = LIST_BYTES / 3, LIST_PACKETS = (LIST_BYTES + 182) / 183 };

/* Sections end to end, and what is said of their sizes. */
struct list {
    uint8_t bytes[LIST_BYTES];
    size_t size;
    size_t sizes[LIST_MOST];
    size_t count;
};

/* A list that can be sent: sections of any bytes behind their heads, or such that some of them stand. With `real` all do. */
void make_list(struct dice *d, struct list *l, int real);

/* Such a list, or a damaged one. */
void make_list_case(struct dice *d, struct list *l);

#endif
