/* One call, answered by the second implementation and by every engine of the library. */
#ifndef BESIDE_BESIDE_H
#define BESIDE_BESIDE_H

#include "call.h"

/* The second implementation's answer to the same call. */
uint32_t second_answer(enum verb verb, const struct call *c);

/* One case each: the block, or the run, is sealed and opened by every engine; the message's tag is made, and the one at
 * `first` is tested, by every engine. The refusal, every byte of the output and the bytes around it are the second
 * implementation's, and nothing else is changed. The output that the call names is not looked at. */
void try_block(const struct call *c);
void try_run(const struct call *c);
void try_tag(const struct call *c);

#endif
