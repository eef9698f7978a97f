/* Wipes bytes, and the stack that finished calls have used. Nothing here is proved; tests/wipe/left.c looks for keys. */
#include "fox.h"

#include <string.h>

/* Made once for each library, with the stack that the deepest call of that library may take. */
#ifndef DEEPEST
#error "DEEPEST has to say how many bytes of stack are wiped"
#endif

/* After the zeros the compiler is told that somebody reads them, or it could leave them out. */
void fox_wipe(void *bytes, size_t length)
{
    memset(bytes, 0, length);
    __asm__ volatile("" : : "r"(bytes) : "memory");
}

/* A call of its own, so that its array lies where the calls before it had theirs. */
__attribute__((noinline)) void fox_wipe_stack(void)
{
    uint8_t used[DEEPEST];
    fox_wipe(used, sizeof used);
}
