/* Cases of a tag by one engine: each of these counts one, and shows the call where it went wrong. */
#ifndef TAG_CHECK_H
#define TAG_CHECK_H

#include "call.h"

/* Makes the call, and holds its answer to `right`. No byte of the message is shown, since there may be none. */
void check_answer(const struct engine *engine, enum verb verb, const struct call *c, uint32_t right);

/* The same with the call's buffers beside pages that may not be touched, at either end of their rooms; after it the
 * output has the bytes at `answer`, and all else is as it was. */
void check_laid(const struct engine *engine, enum verb verb, const struct call *c, int at_end, uint32_t right,
                const uint8_t *answer);

#endif
