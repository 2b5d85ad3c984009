/* One reading, so often, to be counted: count WAY TIMES. What TIMES 0 takes is taken off. A way in capital letters has a digit above 9 in it: the last
   one of the last number. */
#include "lohitunga.h"

#include <stdlib.h>

static uint8_t satellite[13] = {0x43, 11, 0x01, 0x17, 0x57, 0x25, 0x01, 0x92, 0xA1, 0x02, 0x75, 0x00, 0x03};
static uint8_t cable[13] = {0x44, 11, 0x03, 0x12, 0x00, 0x00, 0xFF, 0xF2, 0x03, 0x00, 0x68, 0x75, 0x02};
static uint8_t offset[15] = {0x58, 13, 'G', 'B', 'R', 0x02, 0x00, 0x00, 0xC0, 0x79, 0x12, 0x45, 0x00, 0x01, 0x00};

int main(int argc, char **argv)
{
    if (argc != 3)
        return 2;
    char way = *argv[1];
    volatile uint8_t second = way == 'T' ? 0x0A : 0x00;
    volatile size_t sink = 0;
    satellite[12] = way == 'S' ? 0xA3 : 0x03;
    cable[12] = way == 'C' ? 0xA2 : 0x02;
    offset[14] = way == 'L' ? 0x0A : 0x00;
    for (int k = atoi(argv[2]); k > 0; k--)
        switch (way | 0x20) {
        case 's': sink += lohitunga_read_satellite(satellite, sizeof satellite).number; break;
        case 'c': sink += lohitunga_read_cable(cable, sizeof cable).number; break;
        case 'l': sink += lohitunga_read_local_time_offset(offset, sizeof offset, 0).number; break;
        case 't': sink += lohitunga_read_time(0xC079, 0x12, 0x45, second).number; break;
        default: return 2;
        }
    return sink > 1000000;
}
