/* Heap blocks of exactly so many bytes, so that an address sanitizer sees the first byte read or written outside. */
#ifndef FUZZ_EXACT_H
#define FUZZ_EXACT_H

#include <stddef.h>
#include <stdint.h>

/* `at` is never NULL; with a length of 0 it is the end of a block of one byte, where nothing may be read either. */
struct exact {
    uint8_t *block, *at;
    size_t len;
};

struct exact exact_room(size_t len);
struct exact exact_copy(const uint8_t *bytes, size_t len);
void exact_free(struct exact *e);

/* Before a call whose first `count` bytes are to become those at `answer`: each of these is another byte than it has to
 * become, so that one left out shows, and all after them have one colour. */
void exact_paint(struct exact *e, const uint8_t *answer, size_t count);

/* Whether that call has left the block so. */
int exact_holds(const struct exact *e, const uint8_t *answer, size_t count);

#endif
