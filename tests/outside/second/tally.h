/* What is compared now, the first difference, and how often each answer was met. */
#ifndef TALLY_H
#define TALLY_H

#include "rooms.h"

#include <stddef.h>
#include <stdint.h>

/* What is compared now */

/* The case of this seed, kind and number begins. */
void case_begins(uint64_t seed, const char *kind, uint64_t number);

/* The call that is compared now; a piece is kept by its address, and printed if the call differs or steps outside. */
void call_begins(const char *call, enum placing placing);
void call_piece(const char *name, const void *bytes, size_t size);
void call_number(const char *name, long long number);

/* Fails at the first difference. `names` are words, one for each value. */
void same(const char *names, const long long *library, const long long *second, unsigned count);
void same_bytes(const char *name, const uint8_t *library, const uint8_t *second, size_t size);

/* The same, where a definition stands in the second implementation's place. */
void as_defined(const char *names, const long long *library, const long long *definition, unsigned count);

/* The same, of what the library reads in what it has written, beside what it was given to write. */
void as_given(const char *names, const long long *library, const long long *given, unsigned count);
void as_given_bytes(const char *name, const uint8_t *library, const uint8_t *given, size_t size);

/* The same, of what the library makes of two histories. */
void alike(const char *names, const long long *one, const long long *other, unsigned count);
void alike_bytes(const char *name, const uint8_t *one, const uint8_t *other, size_t size);

/* Fails with these words. */
void must(int holds, const char *what);

/* Prints the case and ends the program when the library steps outside what it was lent, or does not come back. */
void watch(void);

/* Rooms of which a fault may speak by name. */
void watch_room(const char *name, const struct room *room);

/* How often */

/* Under this name (`judge`, `search`) the answer of this number was met once more; 0 is the answer without a refusal. */
void met_number(const char *call, unsigned number);

/* The same for an answer that is a word. */
void met_word(const char *call, const char *word, unsigned long times);

/* The call's numbers and words that a run must meet, as "0 1 2 none". */
void must_meet(const char *call, const char *answers);

/* Prints how often each was met; whether all that must be met were. */
int print_met(void);

#endif
