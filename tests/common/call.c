/* What the verbs are, how they go together, and a call shown. */
#include "call.h"
#include "fox.h"
#include "hex.h"

#include <inttypes.h>
#include <stdio.h>

enum { SHOWN = 160 };

const struct verb_kind verbs[VERBS] = {
    [SEAL] = {"seal_block", "block", NULL, "output", 0, 1, OPEN},
    [OPEN] = {"open_block", "block", NULL, "output", 0, 0, SEAL},
    [SEAL_RUN] = {"seal_run", "counter", "data", "output", 1, 1, OPEN_RUN},
    [OPEN_RUN] = {"open_run", "counter", "data", "output", 1, 0, SEAL_RUN},
    [MAKE_TAG] = {"make_tag", NULL, "message", "tag", 0, 0, TEST_TAG},
    [TEST_TAG] = {"test_tag", "stored tag", "message", NULL, 0, 0, NO_VERB},
};

size_t block_of(uint32_t cipher)
{
    return cipher == FOX64 ? FOX64_BLOCK : FOX128_BLOCK;
}

size_t right_out_len(enum verb verb, const struct call *c)
{
    switch (verb) {
    case SEAL_RUN:
    case OPEN_RUN:
        return c->data_len;
    case MAKE_TAG:
        return block_of(c->cipher);
    case TEST_TAG:
        return 0;
    default:
        return c->first_len;
    }
}

struct call back_call(enum verb verb, const struct call *c, uint8_t *out)
{
    struct call back = *c;
    if (verbs[verb].at_offset) {
        back.data = c->out;
    } else {
        back.first = c->out;
        back.first_len = c->out_len;
    }
    back.out = out;
    back.out_len = right_out_len(verbs[verb].back, &back);
    return back;
}

uint32_t key_answer(enum verb verb, size_t key_len)
{
    return verbs[verb].seals && key_len < FOX_LEAST_SEAL_KEY ? FOX_REFUSED_SHORT_KEY : FOX_SERVED;
}

const uint8_t *went_in(enum verb verb, const struct call *c)
{
    return verbs[verb].at_offset ? c->data : c->first;
}

void show_call(enum verb verb, const struct call *c)
{
    const struct verb_kind *kind = &verbs[verb];
    printf("cipher %" PRIu32 ", rounds %" PRIu32, c->cipher, c->rounds);
    hex_show("key", c->key, c->key_len, SHOWN);
    if (kind->first != NULL)
        hex_show(kind->first, c->first, c->first_len, SHOWN);
    if (kind->at_offset)
        printf(", offset %" PRIu64, c->offset);
    if (kind->data != NULL)
        hex_show(kind->data, c->data, c->data_len, SHOWN);
    if (kind->out != NULL)
        printf(", %s of %zu bytes", kind->out, c->out_len);
}
