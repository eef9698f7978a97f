/* The parts of the second implementation, each named by its section of 001, as the self-check in vectors.c sees them
 * too. */
#ifndef SECOND_PARTS_H
#define SECOND_PARTS_H

#include <stddef.h>
#include <stdint.h>

enum { MOST_ROUNDS = 255, MOST_KEY = 32, MOST_BLOCK = 16 };

/* field.c, §1.6: a product modulo a polynomial of degree 8, and FOX's */
uint8_t second_product(unsigned a, unsigned b, unsigned modulus);
uint8_t second_times(uint8_t a, uint8_t b);

/* box.c, §2.2.6 and §3.1: sigma4 and sigma8, for any number of bytes */
void second_substitute(uint8_t *x, size_t len);

/* matrix.c, §2.2.7 and §2.2.8: mu4 for a width of 4 bytes, mu8 for 8 */
void second_diffuse(uint8_t *x, size_t width);

/* rounds.c, §2.1 and §2.2. A block is 8 or 16 bytes, and so is each round key; the keys stand one after the other. */
void second_or(uint8_t *word);
void second_io(uint8_t *word);
void second_each_left_word(uint8_t *x, size_t block, void (*turn)(uint8_t *word));
void second_seal_rounds(uint8_t *x, size_t block, const uint8_t *keys, size_t rounds);
void second_open_rounds(uint8_t *x, size_t block, const uint8_t *keys, size_t rounds);

/* schedule.c, §2.3. `ek` is counted in bytes here, as is every length. */
size_t second_ek(size_t block, size_t key_len);
void second_mixed_key(uint8_t *mixed, size_t ek, const uint8_t *key, size_t key_len);
void second_seed(uint8_t *reg, size_t rounds);
void second_step(uint8_t *reg);
void second_step_back(uint8_t *reg);
void second_mix_quarters(uint8_t *x, size_t len);
void second_round_keys(uint8_t *keys, size_t block, size_t rounds, const uint8_t *key, size_t key_len);

/* So many round keys from a value of the register on, which is left where the next one would be made. */
void second_keys_from(uint8_t *keys, size_t block, size_t count, const uint8_t *key, size_t key_len, uint8_t *reg);

#endif
