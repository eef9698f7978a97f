/* A call as the second implementation answers it. */
#include "beside.h"
#include "second.h"

uint32_t second_answer(enum verb verb, const struct call *c)
{
    if (verb == SEAL_RUN || verb == OPEN_RUN)
        return second_run(verb == OPEN_RUN, c->cipher, c->rounds, c->key, c->key_len, c->first, c->first_len, c->offset,
                          c->data, c->data_len, c->out, c->out_len);
    if (verb == MAKE_TAG)
        return second_make_tag(c->cipher, c->rounds, c->key, c->key_len, c->data, c->data_len, c->out, c->out_len);
    if (verb == TEST_TAG)
        return second_test_tag(c->cipher, c->rounds, c->key, c->key_len, c->data, c->data_len, c->first,
                               c->first_len);
    return second_block(verb == OPEN, c->cipher, c->rounds, c->key, c->key_len, c->first, c->first_len, c->out,
                        c->out_len);
}
