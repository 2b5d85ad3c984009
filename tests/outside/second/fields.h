/* What the writers of descriptors are given, from a seed: fields in range, and outside it. */
#ifndef FIELDS_H
#define FIELDS_H

#include "lohitunga.h"
#include "make.h"

enum { BODY_MOST = 255, FIELDS_MOST = 12, BYTES_MOST = 1024, NUMBERS_MOST = 1024 };

/* A field: from where to where its layout goes, and from where to where C's type. */
struct field { const char *name; long long least, most, c_least, c_most; };

int can_be_outside(const struct field *f);

extern const struct field of_satellite[], of_local[];

/* Places in of_local and in of_satellite */
enum { OFFSET = 2, MJD = 3, SECOND = 6, UNDEFINED = 7, NEXT = 8 };
enum { MODULATION_SYSTEM = 5, ROLL_OFF = 6 };

enum form { TEXTS, LIST, SYSTEM };

/* `why` is where 112 is counted, by field. `fields` are those of one item of a list, `bytes` its bytes; else those of the body but for its texts. */
struct writer {
    const char *name, *why;
    uint8_t tag;
    enum form form;
    const struct field *fields;
    unsigned field_count, texts;
    size_t bytes;
};

extern const struct writer writers[11];

size_t most_items(const struct writer *w);

/* Fields in the order of the writer's table, and of texts parts of the bytes lent; or of a list the rows of all its items. */
struct given {
    const struct writer *w;
    long long fields[FIELDS_MOST];
    lohitunga_part parts[2];
    uint8_t bytes[BYTES_MOST];
    size_t size;
    int32_t numbers[NUMBERS_MOST];
    size_t count;
    int behind; /* what was spoiled is an item that ends behind the 255th byte */
};

/* How many bytes the body has, or would have. */
size_t body_of(const struct given *g);

/* Every field in range; texts and lists may be too long. */
void make_given(struct dice *d, struct given *g, const struct writer *w);

/* The same, of the fields that are no list's, and of one row. */
void make_fields(struct dice *d, struct given *g);
void make_row(struct dice *d, const struct writer *w, int32_t *row);

/* One thing put outside its layout; the name of that, or NULL where C does not let it be. */
const char *spoil_given(struct dice *d, struct given *g);

#endif
