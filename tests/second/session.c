/* A session as a plain machine: each call is the stretch of a run at the position, or one of no bytes where it begins or
 * goes to. */
#include "session.h"
#include "second.h"

#include <string.h>

/* A stretch of the machine's run. The counter block has the cipher's size by the time that the machine has one, and
 * before that the cipher is refused. */
static uint32_t stretch(const struct second_session *s, uint64_t offset, const uint8_t *input, size_t input_len,
                        uint8_t *out, size_t out_len)
{
    return second_run(!s->sealing, s->cipher, s->rounds, s->key, s->key_len, s->counter, s->cipher / 8, offset, input,
                      input_len, out, out_len);
}

uint32_t second_session_start(struct second_session *s, int opening, uint32_t cipher, uint32_t rounds,
                              const uint8_t *key, size_t key_len, const uint8_t *counter, size_t counter_len)
{
    uint32_t refusal = second_run(opening, cipher, rounds, key, key_len, counter, counter_len, 0, key, 0, NULL, 0);
    memset(s, 0, sizeof *s);
    if (refusal != 0)
        return refusal;
    s->cipher = cipher, s->rounds = rounds, s->key_len = key_len, s->sealing = !opening;
    memcpy(s->key, key, key_len);
    memcpy(s->counter, counter, counter_len);
    return 0;
}

uint32_t second_session_advance(struct second_session *s, const uint8_t *input, size_t input_len, uint8_t *out,
                                size_t out_len)
{
    uint32_t refusal = stretch(s, s->position, input, input_len, out, out_len);
    if (refusal == 0)
        s->position += input_len;
    return refusal;
}

uint32_t second_session_move(struct second_session *s, uint64_t position)
{
    uint32_t refusal = stretch(s, position, NULL, 0, NULL, 0);
    if (refusal == 0)
        s->position = position;
    return refusal;
}
