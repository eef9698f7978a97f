/* What a call on a run file does. */
#ifndef FILE_OUTCOME_H
#define FILE_OUTCOME_H

#include "file_call.h"

/* Its answer, with the count and the place after it. A verb that has no count, or no place, does not look at it. */
struct outcome {
    uint64_t answer, count, place[FOX_PLACE_WORDS];
};

/* The second implementation's. What it puts out goes to the call's own `out`; the call's place and count are as they
 * were. */
struct outcome second_outcome(enum file_verb verb, const struct file_call *c);

#endif
