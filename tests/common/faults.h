/* A fault inside a call of the library comes back as an answer, so that a test names the case and goes on. */
#ifndef COMMON_FAULTS_H
#define COMMON_FAULTS_H

#include "call.h"

/* No call answers so. */
#define FAULTED UINT32_MAX

/* Called once, before the first call that is to be caught. A fault outside a call names its group and ends the
 * program. */
void catch_faults(void);

uint32_t make_caught(const struct engine *engine, enum verb verb, const struct call *c);

/* The same for any work that makes a call; answers whether it faulted. */
int work_faults(void (*work)(void *given), void *given);

/* The address at which the last fault came. */
const uint8_t *fault_place(void);

#endif
