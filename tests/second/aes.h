/* AES-128 (FIPS 197), sealing alone: CMAC's published examples are of that cipher. It belongs to the self-check. */
#ifndef SECOND_AES_H
#define SECOND_AES_H

#include <stdint.h>

/* A seal_function of cmac.h: `key` has 16 bytes, and so has the block. */
void aes_seal(const void *key, uint8_t *x);

#endif
