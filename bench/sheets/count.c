/* One call over a section, so often, to be counted: count ENTRIES BODY WAY TIMES. The ways are judge, sheet and section; what TIMES 0 takes is taken
   off. It prints the section's size. */
#include "sections.h"

int main(int argc, char **argv) {
    static uint8_t s[SECTION], sheet[SHEET], again[SECTION];
    if (argc != 5) return 2;
    size_t size = make(s, (size_t)atoi(argv[1]), atoi(argv[2]));
    lohitunga_sheet_answer a = lohitunga_to_sheet(s, size, sheet, SHEET);
    volatile size_t sink = a.number;
    for (int k = atoi(argv[4]); k; k--)
        switch (*argv[3] == 'j' ? 0 : argv[3][1] == 'h' ? 1 : 2) {
        case 0: sink += lohitunga_judge(s, size).number; break;
        case 1: sink += lohitunga_to_sheet(s, size, sheet, SHEET).number; break;
        case 2: sink += lohitunga_to_section(sheet, a.size, again, SECTION).number; break;
        }
    printf("%zu\n", size);
    return sink != 0;
}
