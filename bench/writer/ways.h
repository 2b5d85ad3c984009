/* Ways to put the sections of a stream into packets. */
#ifndef WRITER_WAYS_H
#define WRITER_WAYS_H
#include "../rounds.h"

/* The sections of a stream end to end, and room for the packets that they take. */
struct list {
    uint8_t *sections, *room;
    size_t *sizes;
    size_t size, count, room_size;
};

/* That of the stream which is measured: it is cut before, and dropped behind. */
extern struct list list;
void cut(const struct stream *);
void drop(void);

/* All sections in one call. */
struct found ours_packets(const struct stream *);
struct found bitstream_packets(const struct stream *);
/* No more than a copy of as many payloads. */
struct found copied(const struct stream *);
struct found copied_by_call(const struct stream *);

#endif
