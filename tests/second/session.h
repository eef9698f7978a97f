/* A session (02, orders 5 and 7) by the second implementation: a plain machine, which knows key, counter block,
 * position and whether it seals, and keeps nothing that it has worked out. */
#ifndef SECOND_SESSION_H
#define SECOND_SESSION_H

#include "parts.h"

struct second_session {
    uint32_t cipher, rounds;
    uint8_t key[MOST_KEY], counter[MOST_BLOCK];
    size_t key_len;
    uint64_t position;
    int sealing;
};

/* At position 0, for opening where `opening` is not 0, and else for sealing; all zeros where it is refused. */
uint32_t second_session_start(struct second_session *s, int opening, uint32_t cipher, uint32_t rounds,
                              const uint8_t *key, size_t key_len, const uint8_t *counter, size_t counter_len);

/* The next bytes, which the position moves on by. */
uint32_t second_session_advance(struct second_session *s, const uint8_t *input, size_t input_len, uint8_t *out,
                                size_t out_len);

uint32_t second_session_move(struct second_session *s, uint64_t position);

#endif
