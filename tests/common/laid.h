/* Calls whose buffers lie against pages that may not be touched. */
#ifndef COMMON_LAID_H
#define COMMON_LAID_H

#include "call.h"

/* The most bytes that a buffer of such a call may have. */
enum { MOST_LAID = 1 << 17 };

/* Makes the call with a copy of each of its buffers in a room of its own, at the room's end or at its beginning,
 * painted on the buffer's other side. Says in words what is wrong with it; NULL where its answer is `right`, its
 * output the bytes at `answer`, and all else, the paint too, as it was. */
const char *laid_wrong(const struct engine *engine, enum verb verb, const struct call *c, int at_end, uint32_t right,
                       const uint8_t *answer);

#endif
