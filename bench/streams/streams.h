/* Streams to be measured on: valid sections of one table, packed end to end into packets of one PID. The same seed gives the same bytes. */
#ifndef STREAMS_H
#define STREAMS_H
#include <stddef.h>
#include <stdint.h>

enum { PACKET = 188, EIT_PID = 0x12, NIT_PID = 0x10, LONGEST = 4096 };

struct stream {
    const char *name;
    uint16_t pid;
    uint8_t *packets;
    size_t count;         /* packets */
    size_t sections;      /* sections in them */
    size_t section_bytes; /* their bytes */
    size_t descriptors;   /* descriptors in them */
    size_t entries;       /* events, or transport streams */
};

/* 90,000 sections of 200 to 4,000 bytes, and 30,000 of 200 to 1,000; fewer where part is above 1. */
struct stream eit_stream(int part);
struct stream nit_stream(int part);
void drop_stream(struct stream *);

/* CRC_32 by a table of 256 entries, and its place at a section's end. */
uint32_t crc_by_table(const uint8_t *, size_t);
void seal(uint8_t *section, size_t size);

#endif
