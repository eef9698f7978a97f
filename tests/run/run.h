/* The groups of cases on the library's runs. */
#ifndef RUN_RUN_H
#define RUN_RUN_H

#include "engines.h"

/* Each row of the file, opened, and sealed or refused. */
void rows(const struct engine *engine, const char *path);

/* Calls spoilt in one way, in two and in more: the refusal that comes first is given, and nothing is changed. */
void refusals(const struct engine *engine);

/* A counter block is one big-endian number as wide as the block, which counts up by one and wraps. */
void counters(const struct engine *engine);

/* Served and refused calls with their buffers beside pages that may not be touched. */
void guarded(const struct engine *engine);

/* The values at which a call is just served and just refused, by every engine. */
void limits(void);

/* Runs cut at random, by every engine, and by every pair of two. */
void random_cuts(uint32_t cipher);

#endif
