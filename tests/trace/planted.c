/* Two planted engines, which are no part of the library. Their calls take and answer what the library's do, over bytes that are
 * doubled, halved or looked up and added. A trace finds nothing in the one, and has to find what was planted in the other. */
#include "fox.h"
#include "trace.h"

#include <string.h>

/* With a branch by the byte; in tests/measure/planted. */
uint8_t planted_double(uint8_t x);
uint8_t planted_halve(uint8_t x);

typedef uint8_t step(uint8_t x);

static uint8_t doubled(uint8_t x)
{
    return (uint8_t)(x * 2 ^ (x >> 7) * 0xF9);
}

static uint8_t looked_up(uint8_t x)
{
    static const uint8_t table[16] = {2, 5, 1, 9, 14, 10, 12, 8, 6, 4, 7, 15, 13, 11, 0, 3};
    const uint8_t *volatile there = table;
    return (uint8_t)(there[x % 16] * 16 + x / 16);
}

static uint32_t added(step *by, const struct call *c, const uint8_t *from)
{
    for (size_t i = 0; i < c->out_len; i++)
        c->out[i] = (uint8_t)(by(from[i]) + by(c->key[i % c->key_len]));
    return FOX_SERVED;
}

static uint32_t tagged(step *by, const struct call *c)
{
    for (size_t i = 0; i < c->out_len; i++)
        c->out[i] = by(c->key[i % c->key_len]);
    for (size_t i = 0; i < c->data_len; i++)
        c->out[i % c->out_len] += by(c->data[i]);
    return FOX_SERVED;
}

static uint32_t tested(step *by, struct call c, int exits)
{
    uint8_t tag[FOX128_BLOCK], bits = 0;
    c.out = tag;
    c.out_len = c.first_len;
    tagged(by, &c);
    for (size_t i = 0; i < c.first_len && !(exits && bits != 0); i++)
        bits |= tag[i] ^ c.first[i];
    return bits == 0 ? FOX_SERVED : FOX_REFUSED_TAG;
}

#define BLOCK_CALL(name, by)                                                                                          \
    static uint32_t name(uint32_t cipher, uint32_t rounds, const uint8_t *key, size_t key_len, const uint8_t *block, \
                         size_t block_len, uint8_t *out, size_t out_len)                                             \
    {                                                                                                                 \
        const struct call c = {cipher, rounds, key, key_len, block, block_len, 0, NULL, 0, out, out_len};            \
        return added(by, &c, c.first);                                                                                \
    }

#define RUN_CALL(name, by)                                                                                              \
    static uint32_t name(uint32_t cipher, uint32_t rounds, const uint8_t *key, size_t key_len, const uint8_t *counter, \
                         size_t counter_len, uint64_t offset, const uint8_t *data, size_t data_len, uint8_t *out,      \
                         size_t out_len)                                                                               \
    {                                                                                                                   \
        const struct call c = {cipher, rounds, key, key_len, counter, counter_len, offset, data, data_len, out, out_len}; \
        return added(by, &c, c.data);                                                                                   \
    }

#define TAG_CALLS(made, tests, by, exits)                                                                               \
    static uint32_t made(uint32_t cipher, uint32_t rounds, const uint8_t *key, size_t key_len, const uint8_t *message, \
                         size_t message_len, uint8_t *tag, size_t tag_len)                                             \
    {                                                                                                                   \
        const struct call c = {cipher, rounds, key, key_len, NULL, 0, 0, message, message_len, tag, tag_len};          \
        return tagged(by, &c);                                                                                          \
    }                                                                                                                   \
    static uint32_t tests(uint32_t cipher, uint32_t rounds, const uint8_t *key, size_t key_len, const uint8_t *message, \
                          size_t message_len, const uint8_t *tag, size_t tag_len)                                      \
    {                                                                                                                   \
        const struct call c = {cipher, rounds, key, key_len, tag, tag_len, 0, message, message_len, NULL, 0};          \
        return tested(by, c, exits);                                                                                    \
    }

BLOCK_CALL(constant_seal, doubled)
BLOCK_CALL(constant_open, doubled)
RUN_CALL(constant_seal_run, doubled)
RUN_CALL(constant_open_run, doubled)
TAG_CALLS(constant_make, constant_test, doubled, 0)
const struct engine constant = {"constant",    constant_seal, constant_open, constant_seal_run, constant_open_run,
                                constant_make, constant_test, 0,             0};

BLOCK_CALL(faulty_seal, planted_double)
BLOCK_CALL(faulty_open, planted_halve)
RUN_CALL(faulty_seal_run, looked_up)
RUN_CALL(faulty_open_run, looked_up)
TAG_CALLS(faulty_make, faulty_test, looked_up, 1)
const struct engine faulty = {"faulty",    faulty_seal, faulty_open, faulty_seal_run, faulty_open_run,
                              faulty_make, faulty_test, 0,           0};

const struct engine *engine_of(const char *name)
{
    for (size_t i = 0; i < ENGINES; i++)
        if (strcmp(engines[i].name, name) == 0)
            return &engines[i];
    return strcmp(name, constant.name) == 0 ? &constant : strcmp(name, faulty.name) == 0 ? &faulty : NULL;
}
