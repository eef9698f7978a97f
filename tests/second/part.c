/* Stopped blocks, from 001's lists of round keys: whole ones, and those that a value of the register begins. */
#include "part.h"
#include "second.h"

#include <string.h>

/* So many step blocks on or back, as `step` goes. A step block has a step for each group of three bytes of ek, the last one
 * cut short (§2.3.8). */
static void walk(uint8_t *reg, size_t blocks, size_t ek, void (*step)(uint8_t *reg))
{
    for (size_t i = 0; i < blocks * ((ek + 2) / 3); i++)
        step(reg);
}

static uint32_t number_of(const uint8_t *reg)
{
    return (uint32_t)reg[0] << 16 | (uint32_t)reg[1] << 8 | reg[2];
}

/* Rounds take the round keys from the first on in sealing, and from the last on in opening. */
static void stop(uint8_t *x, size_t block, int opening, const uint8_t *keys, size_t rounds, size_t done)
{
    if (opening)
        second_open_rounds(x, block, keys + (rounds - done) * block, done);
    else
        second_seal_rounds(x, block, keys, done);
}

/* The register's value for a round, the one past the last among them. */
static void register_for(uint8_t *reg, int opening, size_t rounds, size_t round, size_t ek)
{
    second_seed(reg, rounds);
    if (opening && round == rounds)
        walk(reg, 1, ek, second_step_back);
    else
        walk(reg, opening ? rounds - 1 - round : round, ek, second_step);
}

void second_stops(struct second_stops *stops, int opening, uint32_t cipher, uint32_t rounds, const uint8_t *key,
                  size_t key_len, const uint8_t *block)
{
    uint8_t keys[MOST_ROUNDS * MOST_BLOCK], reg[3];
    size_t b = cipher / 8;
    second_round_keys(keys, b, rounds, key, key_len);
    for (size_t done = 0; done <= rounds; done++) {
        memcpy(stops->state[done], block, b);
        stop(stops->state[done], b, opening, keys, rounds, done);
        register_for(reg, opening, rounds, done, second_ek(b, key_len));
        stops->reg[done] = number_of(reg);
    }
}

/* The list of these rounds' keys begins at the register in sealing, and ends at it in opening. The register is left for the
 * round after them. */
static void list_keys(uint8_t *keys, int opening, size_t block, size_t count, const uint8_t *key, size_t key_len,
                      uint8_t *reg)
{
    uint8_t first[3];
    size_t ek = second_ek(block, key_len);
    if (opening) {
        walk(reg, count, ek, second_step_back);
        memcpy(first, reg, sizeof first);
        walk(first, 1, ek, second_step);
    }
    second_keys_from(keys, block, count, key, key_len, opening ? first : reg);
}

uint32_t second_part(int opening, uint32_t cipher, uint32_t rounds, const uint8_t *key, size_t key_len, uint32_t from,
                     uint32_t until, uint32_t reg, const uint8_t *block, size_t block_len, uint8_t *out, size_t out_len,
                     uint32_t *next)
{
    uint8_t keys[MOST_ROUNDS * MOST_BLOCK], r[3] = {(uint8_t)(reg >> 16), (uint8_t)(reg >> 8), (uint8_t)reg};
    uint32_t refusal = second_block_refusal(opening, cipher, rounds, key_len, block_len, out_len);
    *next = 0;
    if (refusal != 0)
        return refusal;
    uint32_t end = until < rounds ? until : rounds, count = from < end ? end - from : 0;
    if (from == 0)
        register_for(r, opening, rounds, 0, second_ek(block_len, key_len));
    list_keys(keys, opening, block_len, count, key, key_len, r);
    memcpy(out, block, block_len);
    if (from > 0 && count > 0)
        second_each_left_word(out, block_len, opening ? second_io : second_or);
    stop(out, block_len, opening, keys, count, count);
    *next = number_of(r);
    return 0;
}
