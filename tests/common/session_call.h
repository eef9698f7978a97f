/* One call of fox.h on a session as a record. */
#ifndef COMMON_SESSION_CALL_H
#define COMMON_SESSION_CALL_H

#include "fox.h"

enum session_verb { SESSION_START_SEALING, SESSION_START_OPENING, SESSION_ADVANCE, SESSION_MOVE, SESSION_VERBS };

/* As in fox_NAME. */
extern const char *const session_verbs[SESSION_VERBS];

/* A verb looks only at what it has a use for. */
struct session_call {
    uint32_t cipher, rounds;
    const uint8_t *key;
    size_t key_len;
    const uint8_t *counter;
    size_t counter_len;
    uint64_t *session;
    const uint8_t *input;
    size_t input_len;
    uint8_t *out;
    size_t out_len;
    uint64_t position;
};

/* The library's answer. It is always inlined, so that where a call's stack is measured nothing of it is counted. */
__attribute__((always_inline))
static inline uint32_t make_session_call(enum session_verb verb, const struct session_call *c)
{
    switch (verb) {
    case SESSION_START_SEALING:
        return fox_session_start_sealing(c->cipher, c->rounds, c->key, c->key_len, c->counter, c->counter_len,
                                         c->session);
    case SESSION_START_OPENING:
        return fox_session_start_opening(c->cipher, c->rounds, c->key, c->key_len, c->counter, c->counter_len,
                                         c->session);
    case SESSION_ADVANCE:
        return fox_session_advance(c->session, c->input, c->input_len, c->out, c->out_len);
    default:
        return fox_session_move(c->session, c->position);
    }
}

/* The verb that starts a session, one for opening where `opening` is not 0. */
static inline enum session_verb start_verb(int opening)
{
    return opening ? SESSION_START_OPENING : SESSION_START_SEALING;
}

static inline int is_start(enum session_verb verb)
{
    return verb == SESSION_START_SEALING || verb == SESSION_START_OPENING;
}

/* Prints the call, so that it can be made again, but for all after the first bytes of a long buffer. Of the session the
 * words are not shown: what they are is told by the calls before. */
void show_session_call(enum session_verb verb, const struct session_call *c);

#endif
