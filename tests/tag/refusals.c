/* Spoilt calls and their refusals. */
#include "chance.h"
#include "count.h"
#include "fox.h"
#include "lent.h"
#include "tag.h"
#include "tally.h"

#include <stdint.h>

static void spoil_cipher(struct call *c)
{
    static const uint32_t ciphers[] = {0, FOX64 - 1, FOX64 + 1, FOX128 - 1, FOX128 + 1, 256 + FOX64, UINT32_MAX};
    c->cipher = ONE_OF(ciphers);
}

static void spoil_rounds(struct call *c)
{
    static const uint32_t rounds[] = {0, FOX_LEAST_ROUNDS - 1, FOX_MOST_ROUNDS + 1, 256 + 16, UINT32_MAX};
    c->rounds = ONE_OF(rounds);
}

static void spoil_key(struct call *c)
{
    static const size_t lengths[] = {FOX_MOST_KEY + 1, FOX_MOST_KEY + 2, ROOM};
    c->key_len = ONE_OF(lengths);
}

/* There is no memory behind it, so that a byte that is read shows. */
static void spoil_message(struct call *c)
{
    const uint64_t above = (uint64_t)FOX_MOST_MESSAGE + 1;
    const uint64_t lengths[] = {above, above + 7, 2 * above, UINT32_MAX, (1ull << 32) + CASE_LEN, 1ull << 63, SIZE_MAX};
    c->data = nowhere;
    c->data_len = ONE_OF(lengths);
}

static size_t wrong_length(uint32_t cipher)
{
    const size_t b = block_of(cipher), other = FOX64_BLOCK + FOX128_BLOCK - b;
    const size_t lengths[] = {0, 1, b - 1, b + 1, other, 2 * b};
    return ONE_OF(lengths);
}

static void spoil_room(struct call *c) { c->out_len = wrong_length(c->cipher); }
static void spoil_stored_length(struct call *c) { c->first_len = wrong_length(c->cipher); }

static void spoil_stored(struct call *c)
{
    (void)c;
    lent.stored[below(FOX64_BLOCK)] ^= (uint8_t)(1 << below(8));
}

struct spoil {
    uint32_t number;
    void (*change)(struct call *);
};

/* In the order in which a call looks for what it refuses: of two the earlier one is answered. The wrong lengths look at
 * the cipher, so that a set of spoils is put in from its last one on. */
static const struct spoil of_make[] = {
    {FOX_REFUSED_CIPHER, spoil_cipher}, {FOX_REFUSED_ROUNDS, spoil_rounds}, {FOX_REFUSED_KEY, spoil_key},
    {FOX_REFUSED_DATA, spoil_message},  {FOX_REFUSED_OUTPUT, spoil_room},
};
static const struct spoil of_test[] = {
    {FOX_REFUSED_CIPHER, spoil_cipher},            {FOX_REFUSED_ROUNDS, spoil_rounds},
    {FOX_REFUSED_KEY, spoil_key},                  {FOX_REFUSED_DATA, spoil_message},
    {FOX_REFUSED_TAG_LENGTH, spoil_stored_length}, {FOX_REFUSED_TAG, spoil_stored},
};

/* Every set of the spoils but the empty one, by the bits of a number. */
static void every_set(const struct engine *engine, enum verb verb, const struct spoil *spoils, size_t count,
                      const struct call *served)
{
    for (unsigned chosen = 1; chosen < 1u << count; chosen++) {
        struct call c = *served;
        uint32_t first = FOX_SERVED;
        for (size_t i = count; i-- > 0;)
            if ((chosen >> i & 1) != 0) {
                spoils[i].change(&c);
                first = spoils[i].number;
            }
        check_refused(engine, verb, &c, first);
    }
}

void refusals(const struct engine *engine)
{
    enum { TIMES = 10 };
    group_begin("refusals, every set of spoils, nothing changed: %s", engine->name);
    for (int i = 0; i < 2 * TIMES; i++) {
        struct call served = served_call(engine, i < TIMES ? FOX64 : FOX128);
        every_set(engine, MAKE_TAG, of_make, COUNT(of_make), &served);
        every_set(engine, TEST_TAG, of_test, COUNT(of_test), &served);
    }
    group_end();
}
