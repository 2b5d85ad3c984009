/* The archive that `archive` makes. A slice goes as a pointer and a length. */
#ifndef OURS_H
#define OURS_H
#include <stddef.h>
#include <stdint.h>

/* A number for each field of collector::Record, in that order: the PID, the last counter or 16 for none, and so on;
 * it has fewer than 16. */
typedef uint32_t record[16];
/* sections * 65536 + bytes of those accepted in a packet taken; REPEATED and up for the rest */
enum { REPEATED = 0xFFFFFFFE };
extern uint64_t timed_collect(record *, uint8_t *hold, size_t, uint8_t *out, size_t, const uint8_t *packet, size_t);
/* how many packets were written; all ones where none were */
extern uint64_t timed_packets(uint16_t pid, uint8_t counter, const uint8_t *sections, size_t, const size_t *sizes, size_t, uint8_t *room, size_t);
/* the refusal's number, 0 for none */
extern uint32_t timed_judge(const uint8_t *section, size_t);
extern uint32_t timed_crc32(const uint8_t *, size_t);

#endif
