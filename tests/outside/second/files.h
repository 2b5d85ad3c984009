/* What the files of files*.c are written with. Numbers are little-endian. */
#ifndef FILES_H
#define FILES_H

#include "lohitunga.h"

#include <stdint.h>
#include <stdio.h>

/* The file that is open: whether it could be opened, and the status to end with once it is closed. */
extern FILE *file;
int opened(const char *name);
int closed(const char *name);

void put(uint64_t value, int bytes);

/* A line with the name of a field, and its value: a number; bytes in hexadecimal; three characters out of 24 bits; the MJD, the date and the clock. */
void say(const char *name, long long value);
void say_bytes(const char *name, const uint8_t *bytes, size_t size);
void say_letters(const char *name, uint32_t letters);
void say_moment(const char *name, lohitunga_moment m);

#endif
