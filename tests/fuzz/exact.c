/* Heap blocks of exactly so many bytes. */
#include "exact.h"

#include <stdlib.h>
#include <string.h>

enum { PAINT = 0xA5 };

struct exact exact_room(size_t len)
{
    uint8_t *block = malloc(len == 0 ? 1 : len);
    if (block == NULL)
        abort();
    return (struct exact){block, len == 0 ? block + 1 : block, len};
}

struct exact exact_copy(const uint8_t *bytes, size_t len)
{
    struct exact e = exact_room(len);
    if (len > 0)
        memcpy(e.at, bytes, len);
    return e;
}

void exact_free(struct exact *e)
{
    free(e->block);
    e->block = e->at = NULL;
}

void exact_paint(struct exact *e, const uint8_t *answer, size_t count)
{
    memset(e->at, PAINT, e->len);
    for (size_t i = 0; i < count; i++)
        e->at[i] = (uint8_t)~answer[i];
}

int exact_holds(const struct exact *e, const uint8_t *answer, size_t count)
{
    const uint8_t *rest = e->at + count;
    size_t left = e->len - count;
    if (count > 0 && memcmp(e->at, answer, count) != 0)
        return 0;
    return left == 0 || (rest[0] == PAINT && memcmp(rest, rest + 1, left - 1) == 0);
}
