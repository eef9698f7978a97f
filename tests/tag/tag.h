/* The groups of cases on the library's tags. */
#ifndef TAG_TAG_H
#define TAG_TAG_H

#include "engines.h"

/* Each row of the file: its tag made and tested, and tested with each of its bytes changed. */
void rows(const struct engine *engine, const char *path);

/* Calls spoilt in every set of ways: the refusal that comes first is given, and nothing is changed. */
void refusals(const struct engine *engine);

/* Of a message above the limit no byte is read, and one at the limit is not refused. */
void limits(const struct engine *engine);

/* A test reads all bytes of the stored tag, wherever it begins to differ. */
void comparison(const struct engine *engine);

/* Messages as long as the engine's work allows. */
void long_messages(const struct engine *engine);

#endif
