/* Rounds (001 §2.1 and §2.2) over a block of 8 or 16 bytes. A FOX128 block is two pairs of words side by side, where a
 * FOX64 block is one: what is done to a pair is the same in both, and the round function takes one word from each. */
#include "parts.h"

enum { WORD = 4, PAIR = 8 };

static void add(uint8_t *x, const uint8_t *y, size_t len)
{
    for (size_t i = 0; i < len; i++)
        x[i] ^= y[i];
}

/* §2.2.3: the halves (p, q) of a word become (q, p xor q). */
void second_or(uint8_t *word)
{
    for (int i = 0; i < 2; i++) {
        uint8_t p = word[i], q = word[i + 2];
        word[i] = q;
        word[i + 2] = p ^ q;
    }
}

/* §2.2.3: (p, q) become (p xor q, p). */
void second_io(uint8_t *word)
{
    for (int i = 0; i < 2; i++) {
        uint8_t p = word[i], q = word[i + 2];
        word[i] = p ^ q;
        word[i + 2] = p;
    }
}

/* §2.2.4 and §2.2.5: f32 for a width of 4 bytes, f64 for 8. The key has two halves of that width. */
static void round_function(uint8_t *x, size_t width, const uint8_t *key)
{
    add(x, key, width);
    second_substitute(x, width);
    second_diffuse(x, width);
    add(x, key + width, width);
    second_substitute(x, width);
    add(x, key, width);
}

/* §2.2.1 and §2.2.2 without "or" and "io": lmid64 and elmid128. */
static void one_round(uint8_t *x, size_t block, const uint8_t *key)
{
    uint8_t f[MOST_BLOCK / 2];
    for (size_t i = 0; i < block / 2; i++) {
        size_t place = i / WORD * PAIR + i % WORD;
        f[i] = x[place] ^ x[place + WORD];
    }
    round_function(f, block / 2, key);
    for (size_t i = 0; i < block; i++)
        x[i] ^= f[i / PAIR * WORD + i % WORD];
}

void second_each_left_word(uint8_t *x, size_t block, void (*turn)(uint8_t *word))
{
    for (size_t i = 0; i < block; i += PAIR)
        turn(x + i);
}

void second_seal_rounds(uint8_t *x, size_t block, const uint8_t *keys, size_t rounds)
{
    for (size_t i = 0; i < rounds; i++) {
        one_round(x, block, keys + i * block);
        if (i + 1 < rounds)
            second_each_left_word(x, block, second_or);
    }
}

void second_open_rounds(uint8_t *x, size_t block, const uint8_t *keys, size_t rounds)
{
    for (size_t i = rounds; i-- > 0;) {
        one_round(x, block, keys + i * block);
        if (i > 0)
            second_each_left_word(x, block, second_io);
    }
}
