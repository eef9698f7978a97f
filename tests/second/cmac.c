/* CMAC (SP 800-38B), byte by byte: the message is added to the tag's bytes, which are sealed whenever a byte is to go
 * into a block that is full. So the last block is still open when the message ends, and shows whether it is whole. */
#include "cmac.h"
#include "parts.h"

#include <string.h>

void second_double(uint8_t *x, size_t block)
{
    unsigned carry = 0;
    for (size_t i = block; i-- > 0;) {
        unsigned twice = 2u * x[i] + carry;
        x[i] = (uint8_t)twice;
        carry = twice >> 8;
    }
    if (carry)
        x[block - 1] ^= block == 8 ? 0x1B : 0x87;
}

void second_subkeys(uint8_t *k1, uint8_t *k2, size_t block, seal_function *seal, const void *context)
{
    memset(k1, 0, block);
    seal(context, k1);
    second_double(k1, block);
    memcpy(k2, k1, block);
    second_double(k2, block);
}

void second_cmac(uint8_t *tag, size_t block, seal_function *seal, const void *context, const uint8_t *message,
                 size_t len)
{
    uint8_t k1[MOST_BLOCK], k2[MOST_BLOCK];
    size_t full = 0;
    memset(tag, 0, block);
    for (size_t i = 0; i < len; i++) {
        if (full == block) {
            seal(context, tag);
            full = 0;
        }
        tag[full++] ^= message[i];
    }
    second_subkeys(k1, k2, block, seal, context);
    /* The zeros after 80 change nothing. */
    if (full < block)
        tag[full] ^= 0x80;
    for (size_t i = 0; i < block; i++)
        tag[i] ^= full == block ? k1[i] : k2[i];
    seal(context, tag);
}
