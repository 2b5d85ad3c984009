/* Calls one way so often on so many bytes, to be counted: count WAY BYTES CALLS; without words the ways are held to each
   other at every length. */
#include "ways.h"
#include <stdio.h>
#include <stdlib.h>

int main(int argc, char **argv) {
    static uint8_t bytes[8192];
    volatile uint32_t sink = 0;
    fill();
    for (size_t i = 0; i < sizeof bytes; i++) bytes[i] = rand() >> 7;
    if (argc == 4) {
        uint32_t (*crc)(const uint8_t *, size_t) = ways[atoi(argv[1])].crc;
        size_t size = (size_t)atoi(argv[2]);
        for (int calls = atoi(argv[3]); calls > 0; calls--) sink += crc(bytes, size);
        return 0;
    }
    for (size_t n = 0; n < 5000; n++)
        for (int w = 1; w < WAYS; w++)
            if (ways[w].crc(bytes + n % 61, n) != by_table(bytes + n % 61, n))
                return printf("%s differs at %zu bytes\n", ways[w].name, n), 1;
    return 0;
}
