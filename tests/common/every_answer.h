/* What was tried so far had each of these answers among it: a group of cases of its own. */
#ifndef COMMON_EVERY_ANSWER_H
#define COMMON_EVERY_ANSWER_H

#include "answers.h"
#include "tally.h"

#include <inttypes.h>
#include <stddef.h>
#include <stdio.h>

static inline void each_answered(const uint32_t *answers, size_t count)
{
    group_begin("every answer was tried");
    for (size_t i = 0; i < count; i++)
        if (case_wrong(times_answered(answers[i]) > 0))
            printf("%" PRIu32 " was never the right one\n", answers[i]);
    group_end();
}

#endif
