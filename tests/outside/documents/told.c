/* Reads each line on standard input, 'NAME: bytes in hexadecimal gives ..', puts the bytes to the reading of that name, and writes the line with what the
 * library gives. */
#include "lohitunga.h"

#include <stdio.h>
#include <string.h>

static int begins(const char *line, const char *name) { return strncmp(line, name, strlen(name)) == 0; }

static void tell(unsigned number, size_t place, unsigned digit)
{
    printf(" gives %u at place %zu", number, place);
    if (number == 63)
        printf(", digit %u", digit);
    printf("\n");
}

#define TELL(call) do { __typeof__(call) a = call; tell(a.number, a.place, a.digit); } while (0)

int main(void)
{
    static char line[2000];
    uint8_t b[257];
    while (fgets(line, sizeof line, stdin)) {
        const char *text = line + strcspn(line, ":"), *bytes = text + 1;
        size_t n = 0, index = 0;
        unsigned byte;
        int used;
        while (n < sizeof b && sscanf(bytes, " %2x%n", &byte, &used) == 1) {
            b[n++] = (uint8_t)byte;
            bytes += used;
        }
        printf("%.*s:", (int)(text - line), line);
        for (size_t i = 0; i < n; i++)
            printf(" %02X", b[i]);
        if (begins(line, "satellite"))
            TELL(lohitunga_read_satellite(b, n));
        else if (begins(line, "cable"))
            TELL(lohitunga_read_cable(b, n));
        else if (sscanf(line, "local time offset, item %zu", &index) == 1)
            TELL(lohitunga_read_local_time_offset(b, n, index));
        else if (begins(line, "time"))
            TELL(lohitunga_time_from(b, n));
        else if (begins(line, "duration"))
            TELL(lohitunga_duration_from(b, n));
        else
            printf(" is of no reading\n");
    }
    return 0;
}
