/* CMAC (SP 800-38B) over any cipher, so that it can be held to published examples of another one. A block is 8 or 16
 * bytes. */
#ifndef SECOND_CMAC_H
#define SECOND_CMAC_H

#include <stddef.h>
#include <stdint.h>

/* Seals the block in place, under the key that `context` stands for. */
typedef void seal_function(const void *context, uint8_t *x);

/* §6.1, steps 2 and 3: the block as one big-endian number is doubled, and 1B or 87 added where its top bit leaves. */
void second_double(uint8_t *x, size_t block);

/* §6.1 */
void second_subkeys(uint8_t *k1, uint8_t *k2, size_t block, seal_function *seal, const void *context);

/* §6.2: the tag has all bytes of a block. */
void second_cmac(uint8_t *tag, size_t block, seal_function *seal, const void *context, const uint8_t *message,
                 size_t len);

#endif
