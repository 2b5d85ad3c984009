/* One case of each kind: made from the dice, put to the library and to the second implementation, compared. */
#ifndef KINDS_H
#define KINDS_H

#include "make.h"
#include "rooms.h"

struct rooms {
    struct room input;          /* read-only: packets, sections, sheets, descriptors */
    struct room hold, out;      /* and for what makes sheets and sections: out alone */
    struct room state;          /* a record or a roll */
    struct room sizes, packets; /* of the writer: read-only, and its room */
};

extern struct rooms rooms;

struct kind {
    const char *name;
    unsigned share;                     /* one case has about so many calls or more: of COUNT cases COUNT / share are made */
    void (*prepare)(void);              /* what must be met */
    void (*once)(void);                 /* what is gone through whole, whatever the seed; may be NULL */
    void (*one)(struct dice *d);        /* one case */
};

/* What the files of kinds have in common: the input is lent and taken back, and two rows of values are compared; their
 * names are the text of the list. */
const uint8_t *lend(const void *bytes, size_t size, enum placing p);
void back(void);

#define COUNT(array) (sizeof(array) / sizeof *(array))
#define SAME(names, library, second) same(names, library, second, COUNT(library))

/* Where the reading is refused, every other field of the library's answer is 0. */
#define OR_0(number, value) ((number) ? 0 : (long long)(value))

/* What 63 to 65 tell, of the library's answer and of `why` in the second implementation's: three values, "number place digit". */
#define WHY(told) (told).number, (long long)(told).place, (told).digit

/* "An adaptation field of at least one byte with that bit set": in control 10 and 11, its flags behind its length */
int has_bit(const uint8_t *packet);

/* The size of the section with this head. */
size_t declared_by(const uint8_t *head);

/* Of records that nobody left so: a byte counter, often about to run round; a mark, clear or set by any number. */
uint32_t any_count(struct dice *d);
uint8_t any_mark(struct dice *d);

/* Of kinds_parts.c: a part of the kind `sections`. */
void prepare_parts(void);
void compare_parts(struct dice *d, const uint8_t *section, size_t size);

#endif
