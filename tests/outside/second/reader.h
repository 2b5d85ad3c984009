/* Reading a file of files.c: numbers are little-endian, and a file that breaks off within one ends the program. */
#ifndef READER_H
#define READER_H

#include <stdio.h>
#include <stdlib.h>

static FILE *file;

static unsigned get(int bytes)
{
    unsigned value = 0;
    for (int i = 0; i < bytes; i++) {
        int c = getc(file);
        if (c == EOF)
            exit(2);
        value |= (unsigned)c << 8 * i;
    }
    return value;
}

/* Whether there is more. */
static int goes_on(void)
{
    int first = getc(file);
    if (first == EOF)
        return 0;
    ungetc(first, file);
    return 1;
}

#endif
