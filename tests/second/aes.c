/* AES-128 (FIPS 197). Column c of the state is the bytes 4c to 4c + 3 of the block, and round keys are made as they are
 * needed. */
#include "aes.h"
#include "parts.h"

#include <string.h>

enum { BLOCK = 16, ROUNDS = 10 };

/* §4.2: bytes as polynomials modulo 11B. */
static uint8_t times(unsigned a, unsigned b)
{
    return second_product(a, b, 0x11B);
}

/* §5.1.1: the inverse, which is the power of 254, then the sum of 63 and five rotations of it. */
static uint8_t entry(unsigned x)
{
    unsigned inverse = 1, sum = 0x63;
    for (int i = 0; i < 254; i++)
        inverse = times(inverse, x);
    for (int i = 0; i < 5; i++)
        sum ^= inverse << i | inverse >> (8 - i);
    return (uint8_t)sum;
}

static uint8_t box(uint8_t x)
{
    static uint8_t entries[256];
    static int made = 0;
    for (unsigned i = 0; !made && i < 256; i++)
        entries[i] = entry(i);
    made = 1;
    return entries[x];
}

/* §5.1.1 and §5.1.2: row r of the state is turned by r columns to the left. */
static void substitute_and_turn(uint8_t *x)
{
    uint8_t from[BLOCK];
    memcpy(from, x, BLOCK);
    for (int i = 0; i < BLOCK; i++)
        x[i] = box(from[(i + i % 4 * 4) % BLOCK]);
}

/* §5.1.3 */
static void mix_columns(uint8_t *x)
{
    uint8_t from[BLOCK];
    memcpy(from, x, BLOCK);
    for (int i = 0; i < BLOCK; i++) {
        const uint8_t *column = from + i / 4 * 4;
        x[i] = times(column[i % 4], 2) ^ times(column[(i + 1) % 4], 3) ^ column[(i + 2) % 4] ^ column[(i + 3) % 4];
    }
}

static void add(uint8_t *x, const uint8_t *y)
{
    for (int i = 0; i < BLOCK; i++)
        x[i] ^= y[i];
}

/* §5.2 */
static void step_key(uint8_t *key, uint8_t constant)
{
    for (int i = 0; i < 4; i++)
        key[i] ^= box(key[12 + (i + 1) % 4]);
    key[0] ^= constant;
    for (int i = 4; i < BLOCK; i++)
        key[i] ^= key[i - 4];
}

void aes_seal(const void *key, uint8_t *x)
{
    uint8_t round_key[BLOCK], constant = 1;
    memcpy(round_key, key, BLOCK);
    add(x, round_key);
    for (int round = 1; round <= ROUNDS; round++) {
        substitute_and_turn(x);
        if (round < ROUNDS)
            mix_columns(x);
        step_key(round_key, constant);
        constant = times(constant, 2);
        add(x, round_key);
    }
}
