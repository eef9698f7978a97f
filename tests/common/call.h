/* One call of fox.h as a record that any engine can be handed. */
#ifndef COMMON_CALL_H
#define COMMON_CALL_H

#include "engines.h"

enum verb { SEAL, OPEN, SEAL_RUN, OPEN_RUN, MAKE_TAG, TEST_TAG, VERBS, NO_VERB };

/* `name` is that of fox.h, as in fox_card_NAME. `first`, `data` and `out` say what the buffers of that name in a call
 * are, and are NULL for those that the verb has no use for. `at_offset` says that it is a verb on runs, which alone have
 * an offset, and `seals` that it refuses a key of fewer than FOX_LEAST_SEAL_KEY bytes. What a call has put out goes into
 * a call of the verb `back`, which is NO_VERB where nothing is put out. */
struct verb_kind {
    const char *name, *first, *data, *out;
    int at_offset, seals;
    enum verb back;
};

extern const struct verb_kind verbs[VERBS];

/* A verb looks only at what it has a use for. */
struct call {
    uint32_t cipher, rounds;
    const uint8_t *key;
    size_t key_len;
    const uint8_t *first;
    size_t first_len;
    uint64_t offset;
    const uint8_t *data;
    size_t data_len;
    uint8_t *out;
    size_t out_len;
};

/* The engine's answer. It is always inlined, so that where a call's stack is measured nothing of it is counted. */
__attribute__((always_inline))
static inline uint32_t make_call(const struct engine *engine, enum verb verb, const struct call *c)
{
    if (verb == SEAL_RUN || verb == OPEN_RUN) {
        run_call *run = verb == OPEN_RUN ? engine->open_run : engine->seal_run;
        return run(c->cipher, c->rounds, c->key, c->key_len, c->first, c->first_len, c->offset, c->data, c->data_len,
                   c->out, c->out_len);
    }
    if (verb == MAKE_TAG)
        return engine->make_tag(c->cipher, c->rounds, c->key, c->key_len, c->data, c->data_len, c->out, c->out_len);
    if (verb == TEST_TAG)
        return engine->test_tag(c->cipher, c->rounds, c->key, c->key_len, c->data, c->data_len, c->first,
                                c->first_len);
    block_call *made = verb == OPEN ? engine->open : engine->seal;
    return made(c->cipher, c->rounds, c->key, c->key_len, c->first, c->first_len, c->out, c->out_len);
}

/* The bytes of the cipher's block. */
size_t block_of(uint32_t cipher);

/* The length of the output with which such a call is served; 0 where nothing is put out. */
size_t right_out_len(enum verb verb, const struct call *c);

/* The call that takes what `c` has put out, and puts its own output at `out`. Where it is served, a block or a run comes
 * back as it went in, and of a tag, which is tested, nothing comes out. */
struct call back_call(enum verb verb, const struct call *c, uint8_t *out);

/* What a verb answers to a key of 0 to FOX_MOST_KEY bytes where all else is right: a key that is too short to seal with
 * is refused by the verbs that seal, so that what it has opened cannot be taken back. */
uint32_t key_answer(enum verb verb, size_t key_len);

/* What went in, which is what comes back: as many bytes as back_call puts out. */
const uint8_t *went_in(enum verb verb, const struct call *c);

/* Prints the call, so that it can be made again, but for all after the first bytes of a long buffer. */
void show_call(enum verb verb, const struct call *c);

#endif
