/* Writes a stream to a file: write EIT|NIT FILE. */
#include "streams.h"
#include <stdio.h>
#include <string.h>

int main(int argc, char **argv) {
    if (argc != 3 || (strcmp(argv[1], "EIT") && strcmp(argv[1], "NIT"))) return fprintf(stderr, "usage: write EIT|NIT FILE\n"), 2;
    struct stream t = *argv[1] == 'E' ? eit_stream(1) : nit_stream(1);
    FILE *f = fopen(argv[2], "wb");
    if (!f || fwrite(t.packets, PACKET, t.count, f) != t.count || fclose(f)) return perror(argv[2]), 1;
    printf("%s: %zu packets, %zu sections of %zu bytes in all, %zu entries, %zu descriptors\n", t.name, t.count, t.sections, t.section_bytes, t.entries, t.descriptors);
    return 0;
}
