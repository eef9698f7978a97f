/* Cases of a run, sealed or opened by one engine: each of the first three counts one, and shows the call where it went
 * wrong. */
#ifndef RUN_CHECK_H
#define RUN_CHECK_H

#include "call.h"

int check(int right, const struct engine *engine, enum verb verb, const struct call *c, const char *what);

/* Makes the call, and holds its answer to `right`. */
void check_answer(const struct engine *engine, enum verb verb, const struct call *c, uint32_t right);

/* As many bytes as the call has data. */
void check_bytes(const uint8_t *found, const uint8_t *expected, const struct engine *engine, enum verb verb,
                 const struct call *c, const char *of);

/* A verb's answer where sealing is refused by this number: opening is, too, but it takes a key that is too short to
 * seal with, and is served. */
uint32_t answer_by(enum verb verb, uint32_t number);

#endif
