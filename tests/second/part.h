/* A block that is stopped between two rounds, and goes on, by the second implementation. Rounds are counted from 0. */
#ifndef SECOND_PART_H
#define SECOND_PART_H

#include "parts.h"

/* Every place to stop at, by the number of rounds done, from none to all: the bytes of the state, and the register's value
 * for the round that would come next. Past the last round it is one step block beyond the last round key in sealing, and in
 * opening one before the seed. */
struct second_stops {
    uint8_t state[MOST_ROUNDS + 1][MOST_BLOCK];
    uint32_t reg[MOST_ROUNDS + 1];
};

/* From the list of all round keys. Cipher, rounds and key are such as are served. */
void second_stops(struct second_stops *stops, int opening, uint32_t cipher, uint32_t rounds, const uint8_t *key,
                  size_t key_len, const uint8_t *block);

/* The rounds from number `from` on, up to the one before `until`, from any state and register. The register's value for the
 * round that would come next is put at `next`, and 0 where the call is refused. */
uint32_t second_part(int opening, uint32_t cipher, uint32_t rounds, const uint8_t *key, size_t key_len, uint32_t from,
                     uint32_t until, uint32_t reg, const uint8_t *block, size_t block_len, uint8_t *out, size_t out_len,
                     uint32_t *next);

#endif
