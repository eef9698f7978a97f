/* The second implementation of FOX64 and FOX128: written from 001, 01, 02 and SP 800-38B alone, on arrays of bytes, to
 * be compared with the proved library. Each call answers with the first refusal that applies, or with 0; `out` and the
 * tag that is made are written only where the answer is 0. */
#ifndef SECOND_H
#define SECOND_H

#include <stddef.h>
#include <stdint.h>

/* Refusals 1 to 3, which all calls with a key have in common. */
uint32_t second_key_refusal(uint32_t cipher, uint32_t rounds, size_t key_len);

/* Refusals 1 to 3, and after them 13 where `opening` is 0, which all calls that seal or open have in common. */
uint32_t second_turn_refusal(int opening, uint32_t cipher, uint32_t rounds, size_t key_len);

/* These, then 4 and 6, in this order, which calls on a block have in common. */
uint32_t second_block_refusal(int opening, uint32_t cipher, uint32_t rounds, size_t key_len, size_t block_len,
                              size_t out_len);

/* One block, sealed, or opened where `opening` is not 0. */
uint32_t second_block(int opening, uint32_t cipher, uint32_t rounds, const uint8_t *key, size_t key_len,
                      const uint8_t *block, size_t block_len, uint8_t *out, size_t out_len);

/* A stretch of a run, from its byte `offset` on, sealed or opened: the same XOR, but for what is refused. */
uint32_t second_run(int opening, uint32_t cipher, uint32_t rounds, const uint8_t *key, size_t key_len,
                    const uint8_t *counter, size_t counter_len, uint64_t offset, const uint8_t *data, size_t data_len,
                    uint8_t *out, size_t out_len);

/* The counter block that a run of this number begins with. */
uint32_t second_counter(uint32_t cipher, uint32_t number, uint8_t *counter, size_t counter_len);

/* A tag over a message, made, or a stored one tested. */
uint32_t second_make_tag(uint32_t cipher, uint32_t rounds, const uint8_t *key, size_t key_len, const uint8_t *message,
                         size_t message_len, uint8_t *tag, size_t tag_len);
uint32_t second_test_tag(uint32_t cipher, uint32_t rounds, const uint8_t *key, size_t key_len, const uint8_t *message,
                         size_t message_len, const uint8_t *tag, size_t tag_len);

#endif
