/* Key schedules (001 §2.3). KS64, KS64h and KS128 take the same steps, and differ in three widths: of the block, of the
 * diffusion, and ek. */
#include "parts.h"

#include <string.h>

/* §2.3.6: the first digits of e - 2. */
static const uint8_t pad[32] = {
    0xB7, 0xE1, 0x51, 0x62, 0x8A, 0xED, 0x2A, 0x6A, 0xBF, 0x71, 0x58, 0x80, 0x9C, 0xF4, 0xF3, 0xC7,
    0x62, 0xE7, 0x16, 0x0F, 0x38, 0xB4, 0xDA, 0x56, 0xA7, 0x84, 0xD9, 0x04, 0x51, 0x90, 0xCF, 0xEF,
};

/* Fig. 8 */
size_t second_ek(size_t block, size_t key_len)
{
    return block == 8 && key_len <= 16 ? 16 : 32;
}

/* §2.3.5 and §2.3.7: P and M, both left out for a key that fills ek. */
void second_mixed_key(uint8_t *mixed, size_t ek, const uint8_t *key, size_t key_len)
{
    uint8_t before = 0x6A, last = 0x76;
    memcpy(mixed, key, key_len);
    memcpy(mixed + key_len, pad, ek - key_len);
    for (size_t i = 0; key_len < ek && i < ek; i++) {
        mixed[i] ^= (uint8_t)(last + before);
        before = last;
        last = mixed[i];
    }
}

/* §2.3.9: what the register begins with, three bytes with the highest first. */
void second_seed(uint8_t *reg, size_t rounds)
{
    reg[0] = 0x6A;
    reg[1] = (uint8_t)rounds;
    reg[2] = (uint8_t)~rounds;
}

/* §2.3.9: one step of the register. */
void second_step(uint8_t *reg)
{
    uint8_t top = reg[0] >> 7;
    reg[0] = (uint8_t)(reg[0] << 1 | reg[1] >> 7);
    reg[1] = (uint8_t)(reg[1] << 1 | reg[2] >> 7);
    reg[2] = (uint8_t)(reg[2] << 1);
    if (top)
        reg[2] ^= 0x1B;
}

/* A step undone. The lowest bit is set by a step that has dropped the highest one, and by no other, since the bits 1B that it
 * then adds have the lowest among them. */
void second_step_back(uint8_t *reg)
{
    uint8_t dropped = reg[2] & 1;
    if (dropped)
        reg[2] ^= 0x1B;
    reg[2] = (uint8_t)(reg[1] << 7 | reg[2] >> 1);
    reg[1] = (uint8_t)(reg[0] << 7 | reg[1] >> 1);
    reg[0] = (uint8_t)(dropped << 7 | reg[0] >> 1);
}

/* §2.3.8: D. Each group of three bytes meets the register once, the last group being cut short, and the register is
 * left where the next round's groups begin. */
static void diversify(uint8_t *dkey, const uint8_t *mixed, size_t ek, uint8_t *reg)
{
    for (size_t i = 0; i < ek; i++) {
        dkey[i] = mixed[i] ^ reg[i % 3];
        if (i % 3 == 2 || i + 1 == ek)
            second_step(reg);
    }
}

/* §2.3.13 to §2.3.15: each quarter becomes the sum of the other three. */
void second_mix_quarters(uint8_t *x, size_t len)
{
    size_t quarter = len / 4;
    for (size_t i = 0; i < quarter; i++) {
        uint8_t all = x[i] ^ x[i + quarter] ^ x[i + 2 * quarter] ^ x[i + 3 * quarter];
        for (size_t j = i; j < len; j += quarter)
            x[j] ^= all;
    }
}

/* The hashing layers of Alg. 7 to 9: NL64h first adds words that are neighbours, and then all add the right half to the
 * left. */
static void fold(uint8_t *x, size_t ek, size_t block)
{
    size_t len = ek;
    if (block == 8 && ek == 32) {
        for (size_t i = 0; i < 16; i++)
            x[i] = x[i / 4 * 8 + i % 4] ^ x[i / 4 * 8 + i % 4 + 4];
        len = 16;
    }
    for (size_t i = 0; i < len / 2; i++)
        x[i] ^= x[i + len / 2];
}

/* §2.3.10 to §2.3.12: NL64, NL64h and NL128. */
static void one_round_key(uint8_t *round_key, size_t block, const uint8_t *dkey, size_t ek, int flip)
{
    uint8_t x[MOST_KEY];
    size_t width = block / 2;
    memcpy(x, dkey, ek);
    second_substitute(x, ek);
    for (size_t i = 0; i < ek; i += width)
        second_diffuse(x + i, width);
    second_mix_quarters(x, ek);
    for (size_t i = 0; i < ek; i++)
        x[i] ^= (uint8_t)(flip ? ~pad[i] : pad[i]);
    second_substitute(x, ek);
    fold(x, ek, block);
    second_seal_rounds(x, block, dkey, ek / block);
    memcpy(round_key, x, block);
}

void second_keys_from(uint8_t *keys, size_t block, size_t count, const uint8_t *key, size_t key_len, uint8_t *reg)
{
    uint8_t mixed[MOST_KEY], dkey[MOST_KEY];
    size_t ek = second_ek(block, key_len);
    second_mixed_key(mixed, ek, key, key_len);
    for (size_t i = 0; i < count; i++) {
        diversify(dkey, mixed, ek, reg);
        one_round_key(keys + i * block, block, dkey, ek, key_len == ek);
    }
}

void second_round_keys(uint8_t *keys, size_t block, size_t rounds, const uint8_t *key, size_t key_len)
{
    uint8_t reg[3];
    second_seed(reg, rounds);
    second_keys_from(keys, block, rounds, key, key_len, reg);
}
