/* How the fuzzer changes an input of tests/fuzz/calls.c: by turns in its own way, which knows bytes alone, and by
 * making one of the choices anew. */
#include "chance.h"
#include "take.h"

#include <string.h>

size_t LLVMFuzzerMutate(uint8_t *bytes, size_t len, size_t most);
size_t LLVMFuzzerCustomMutator(uint8_t *bytes, size_t len, size_t most, unsigned seed);

size_t LLVMFuzzerCustomMutator(uint8_t *bytes, size_t len, size_t most, unsigned seed)
{
    chance_from(seed);
    if (below(2) == 0 || most < HEAD)
        return LLVMFuzzerMutate(bytes, len, most);
    uint8_t *choice = bytes + below(CHOICES) * CHOICE;
    if (len < HEAD) {
        memset(bytes + len, 0, HEAD - len);
        len = HEAD;
    }
    fill(choice, CHOICE);
    return len;
}
