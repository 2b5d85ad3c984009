/* A stream of sections: reads a file in which sections stand end to end, and writes packets of one PID that carry them.
 *
 *     packets FILE PID OUT        PID in hexadecimal; OUT is the stream
 *
 * The file is cut by the sections' own lengths, and nothing else of them is judged. It ends with 1 where a file cannot be read or written, or the
 * library writes no packets.
 */
#include <stdio.h>
#include <stdlib.h>

#include "lohitunga.h"
#include "lohitunga_text.h"

static void fails(const char *what) {
    perror(what);
    exit(1);
}

/* Room for so many items; not a null pointer for none. */
static void *room_for(size_t count, size_t item) {
    void *room = calloc(count > 0 ? count : 1, item);
    if (!room)
        fails("packets");
    return room;
}

/* All bytes of a file. */
static uint8_t *read_all(const char *name, size_t *size) {
    FILE *file = fopen(name, "rb");
    if (!file || fseek(file, 0, SEEK_END) != 0)
        fails(name);
    long end = ftell(file);
    if (end < 0)
        fails(name);
    rewind(file);
    uint8_t *bytes = room_for((size_t)end, 1);
    *size = fread(bytes, 1, (size_t)end, file);
    if (*size != (size_t)end || ferror(file))
        fails(name);
    fclose(file);
    return bytes;
}

/* The sizes of the sections; how many there are. What is behind the last one is in no size, and the writer refuses it. */
static size_t cut(const uint8_t *sections, size_t size, size_t *sizes) {
    lohitunga_part all = {0, size};
    lohitunga_section_step step = lohitunga_next_section(sections, size, all);
    size_t count = 0;
    for (; step.found; step = lohitunga_next_section(sections, size, step.rest))
        sizes[count++] = step.section.size;
    return count;
}

int main(int argc, char **argv) {
    if (argc != 4) {
        fprintf(stderr, "usage: packets FILE PID OUT\n");
        return 2;
    }
    unsigned long pid = strtoul(argv[2], NULL, 16);
    if (pid > UINT16_MAX)
        pid = UINT16_MAX; /* no PID either */
    size_t size;
    uint8_t *sections = read_all(argv[1], &size);
    size_t *sizes = room_for(size / 3, sizeof *sizes); /* no section is shorter than its header */
    size_t count = cut(sections, size, sizes);
    size_t most = (size + 182) / 183;
    uint8_t *room = room_for(most, LOHITUNGA_PACKET);
    lohitunga_packets_answer answer =
        lohitunga_packets((uint16_t)pid, 0, sections, size, sizes, count, room, most * LOHITUNGA_PACKET);
    if (answer.number) {
        fprintf(stderr, "packets: refused with %u: %s\n", answer.number, lohitunga_text(answer.number));
        return 1;
    }
    FILE *out = fopen(argv[3], "wb");
    if (!out)
        fails(argv[3]);
    size_t written = fwrite(room, LOHITUNGA_PACKET, answer.packets, out);
    if (fclose(out) != 0 || written != answer.packets)
        fails(argv[3]);
    printf("%zu sections of %zu bytes in %zu packets\n", count, size, answer.packets);
    free(room);
    free(sizes);
    free(sections);
    return 0;
}
