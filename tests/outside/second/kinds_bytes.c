#include "kinds.h"
#include "lohitunga.h"
#include "second.h"
#include "tally.h"

/* Bytes: CRC_32 and the walk */

static void prepare_bytes(void) { must_meet("walk", "descriptor end 9"); }

static void compare_crc(const uint8_t *bytes, size_t size)
{
    for (enum placing p = 0; p < PLACINGS; p++) {
        call_begins("lohitunga_crc32", p);
        call_piece("bytes", bytes, size);
        long long library[] = {lohitunga_crc32(lend(bytes, size, p), size)};
        long long second[] = {second_crc(bytes, size)};
        SAME("register", library, second);
        back();
    }
}

static void compare_walk(const uint8_t *loop, size_t size, size_t at)
{
    struct second_step s = second_walk(loop, size, at);
    for (enum placing p = 0; p < PLACINGS; p++) {
        call_begins("lohitunga_walk", p);
        call_piece("loop", loop, size);
        call_number("at", (long long)at);
        lohitunga_walk_answer a = lohitunga_walk(lend(loop, size, p), size, at);
        int is = s.kind == SECOND_DESCRIPTOR && s.number == 0;
        long long library[] = {a.number, (long long)a.place, a.descriptor, a.tag,
                               (long long)a.start, (long long)a.size, (long long)a.next};
        long long second[] = {s.number, (long long)s.place, is, is ? s.tag : 0, is ? (long long)s.at + 2 : 0,
                              is ? (long long)s.size - 2 : 0, (long long)s.next};
        SAME("number place descriptor tag start size next", library, second);
        back();
    }
    met_word("walk", s.number ? "9" : s.kind == SECOND_END ? "end" : "descriptor", 1);
}

static void one_bytes(struct dice *d)
{
    static uint8_t bytes[5000];
    size_t n = one_in(d, 100) ? below(d, 5000) : one_in(d, 4) ? below(d, 700) : below(d, 40);
    fill(d, bytes, n);
    compare_crc(bytes, n);

    /* A loop of descriptors, its end cut off or not, walked from its start, or asked at any place. */
    n = 0;
    for (unsigned i = below(d, 5); i > 0; i--)
        n += make_descriptor(d, bytes + n, 257);
    if (n > 0 && one_in(d, 3))
        n = below(d, (unsigned)n + 1);
    if (one_in(d, 3)) {
        static const size_t far[] = {SIZE_MAX, SIZE_MAX - 1, SIZE_MAX / 2, (size_t)1 << 32};
        compare_walk(bytes, n, one_in(d, 4) ? far[below(d, 4)] : below(d, (unsigned)n + 4));
        return;
    }
    size_t at = 0;
    for (;;) {
        struct second_step s = second_walk(bytes, n, at);
        compare_walk(bytes, n, at);
        if (s.number || s.kind == SECOND_END)
            break;
        at = s.next;
    }
}

const struct kind kind_bytes = {"bytes", 1, prepare_bytes, NULL, one_bytes};
