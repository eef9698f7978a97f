/* Cases of calls on run files. Each counts one, and shows the call where it went wrong. Of what a call is lent each
 * thing lies beside a page that may not be touched, at one end of a room or the other by chance. */
#ifndef FILE_TRY_H
#define FILE_TRY_H

#include "outcome.h"

/* The library does as the second implementation. Answers with what that does. The call's own `out` is not looked at. */
struct outcome try_call(enum file_verb verb, const struct file_call *c);

/* The library does as is said here, and puts out these bytes, as many as the count says. */
void hold_call(enum file_verb verb, const struct file_call *c, const struct outcome *right, const uint8_t *bytes);

/* A call that is to be refused with this number: count 0, the end for a place that is set, all else as it was. */
void hold_refused(enum file_verb verb, const struct file_call *c, uint32_t number);

/* Makes the call as it is; where it faults the answer is NO_ANSWER. */
#define NO_ANSWER (UINT64_MAX - 1)
uint64_t caught_call(enum file_verb verb, const struct file_call *c);

#endif
