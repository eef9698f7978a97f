/* Work on a painted stack, so that one sees how deep it wrote, and what it has left there. */
#ifndef COMMON_PAINTED_H
#define COMMON_PAINTED_H

#include <stddef.h>
#include <stdint.h>

enum { PAINTED = 1 << 17, PAINT = 0x77 };

/* The stack, which is used from its end on. */
extern uint8_t painted[PAINTED];

/* Paints the stack, and does the work there. */
void on_painted_stack(void (*work)(void));

/* How many bytes the work took, from the first that is no paint to the stack's end. */
size_t stack_written(void);

/* How many of the words of a secret are left there, of `word` bytes each, one after the other. A word counts in this order of
 * its bytes and in the other, since a little-endian processor has the lowest first. */
size_t words_left(const uint8_t *secret, size_t len, size_t word);

#endif
