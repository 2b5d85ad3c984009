/* Turns each line of hexadecimal on standard input, 'sheet ..' into a section and 'section ..' into a sheet, and writes it. */
#include "lohitunga.h"

#include <stdio.h>
#include <string.h>

int main(void)
{
    static char line[20000];
    static uint8_t from[6000], room[5120];
    while (fgets(line, sizeof line, stdin)) {
        int sheet = strncmp(line, "sheet", 5) == 0;
        const char *text = line + strcspn(line, " ");
        size_t n = 0;
        unsigned byte;
        int used;
        while (n < sizeof from && sscanf(text, " %2x%n", &byte, &used) == 1) {
            from[n++] = (uint8_t)byte;
            text += used;
        }
        size_t size;
        unsigned number;
        if (sheet) {
            lohitunga_section_answer a = lohitunga_to_section(from, n, room, sizeof room);
            number = a.number, size = a.size;
        } else {
            lohitunga_sheet_answer a = lohitunga_to_sheet(from, n, room, sizeof room);
            number = a.number, size = a.size;
        }
        if (number != 0) {
            printf("refused %u\n", number);
            continue;
        }
        printf(sheet ? "section" : "sheet");
        for (size_t i = 0; i < size; i++)
            printf(" %02X", room[i]);
        printf("\n");
    }
    return 0;
}
