/* Plain C code for FOX in counter mode and for tags (CMAC), to compare the library's speed with. It checks nothing: a
 * caller hands over what the library would serve. */
#ifndef SPEED_PLAIN_H
#define SPEED_PLAIN_H

#include <stddef.h>
#include <stdint.h>

/* One number a round for FOX64, two for FOX128, left first. */
struct plain_key {
    uint32_t cipher, rounds;
    uint64_t keys[2 * 255];
};

/* To be called once, before any function below. */
void plain_tables(void);

/* What tables are made of: the S-box, and a word times the matrix of FOX64 and of FOX128. */
uint8_t plain_box(uint8_t x);
uint32_t plain_mu4(uint32_t w);
uint64_t plain_mu8(uint64_t w);

void plain_prepare(struct plain_key *prepared, uint32_t cipher, uint32_t rounds, const uint8_t *key, size_t key_len);

/* By tables and a prepared key, one block at a time. */
void plain_run_one(const struct plain_key *prepared, const uint8_t *counter, uint64_t offset,
                      const uint8_t *input, size_t len, uint8_t *out);

/* The same, four blocks side by side. */
void plain_run_four(const struct plain_key *prepared, const uint8_t *counter, uint64_t offset,
                       const uint8_t *input, size_t len, uint8_t *out);

/* By small S-boxes and products worked out, each round key made anew for each block. */
void plain_run_small(uint32_t cipher, uint32_t rounds, const uint8_t *key, size_t key_len, const uint8_t *counter,
                        uint64_t offset, const uint8_t *input, size_t len, uint8_t *out);

/* The tag of a message, as long as a block: by tables and a prepared key, and by small S-boxes, each round key made anew
 * for each block. */
void plain_tag(const struct plain_key *prepared, const uint8_t *message, size_t len, uint8_t *tag);
void plain_tag_small(uint32_t cipher, uint32_t rounds, const uint8_t *key, size_t key_len, const uint8_t *message,
                     size_t len, uint8_t *tag);

/* The tag of a message of which the blocks so far are chained to the block `chained`. The rest of it is handed over,
 * which is empty only where the whole message is. */
void plain_tag_end(const struct plain_key *prepared, const uint8_t *chained, const uint8_t *message, size_t len,
                   uint8_t *tag);

#endif
