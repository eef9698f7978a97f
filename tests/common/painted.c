/* Work on a painted stack, and what it has left there. */
#include "painted.h"

#include <string.h>
#include <ucontext.h>

_Alignas(64) uint8_t painted[PAINTED];
static ucontext_t here, there;

void on_painted_stack(void (*work)(void))
{
    memset(painted, PAINT, sizeof painted);
    getcontext(&there);
    there.uc_stack.ss_sp = painted;
    there.uc_stack.ss_size = sizeof painted;
    there.uc_link = &here;
    makecontext(&there, work, 0);
    swapcontext(&here, &there);
}

size_t stack_written(void)
{
    size_t i = 0;
    while (i < sizeof painted && painted[i] == PAINT)
        i++;
    return sizeof painted - i;
}

static int is_left(size_t from, const uint8_t *word, size_t len)
{
    for (size_t i = from; i + len <= sizeof painted; i++) {
        size_t same = 0, turned = 0;
        while (same < len && painted[i + same] == word[same])
            same++;
        while (turned < len && painted[i + turned] == word[len - 1 - turned])
            turned++;
        if (same == len || turned == len)
            return 1;
    }
    return 0;
}

size_t words_left(const uint8_t *secret, size_t len, size_t word)
{
    size_t count = 0, from = sizeof painted - stack_written();
    for (size_t at = 0; at + word <= len; at += word)
        count += (size_t)is_left(from, secret + at, word);
    return count;
}
