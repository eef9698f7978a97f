/* Long messages, whose tag is known from a short one. A period is a message after which the chain of sealed blocks is
 * back at the zeros from which it began; so any number of them may stand before a message, and the tag stays. The
 * period's blocks come of a chain that the engine itself has opened, which takes every key, as tags do; the short tag is
 * another engine's. */
#include "chance.h"
#include "check.h"
#include "faults.h"
#include "fox.h"
#include "tag.h"
#include "tally.h"

#include <stdio.h>
#include <stdlib.h>
#include <string.h>

/* A prime, so that neither a power of two nor a thousand blocks left out leave the tag as it is. */
enum { PERIOD = 61 };

static void add(uint8_t *to, const uint8_t *bytes, size_t len)
{
    for (size_t i = 0; i < len; i++)
        to[i] ^= bytes[i];
}

/* Each block is what leads from one sealed block of the chain to the next: zeros, any, and zeros again at last. */
static void make_period(const struct engine *engine, struct call c, uint8_t *period)
{
    const size_t b = c.first_len;
    uint8_t chain[(PERIOD + 1) * FOX128_BLOCK] = {0};
    fill(chain + b, (PERIOD - 1) * b);
    for (size_t i = 0; i < PERIOD; i++) {
        c.first = chain + (i + 1) * b, c.out = period + i * b;
        check_answer(engine, OPEN, &c, FOX_SERVED);
        add(c.out, chain + i * b, b);
    }
}

static const struct engine *another(const struct engine *engine)
{
    return &engines[(size_t)(engine - engines + 1) % ENGINES];
}

/* The stored tag is the short message's; one changed bit of the long one shows, wherever it is. */
static void tested(const struct engine *engine, const struct call *c, uint8_t *message)
{
    check_answer(engine, TEST_TAG, c, FOX_SERVED);
    for (int i = 0; i < 3; i++) {
        const size_t place = i == 0 ? c->data_len - 1 : below(c->data_len);
        const uint8_t bit = (uint8_t)(1 << below(8));
        message[place] ^= bit;
        check_answer(engine, TEST_TAG, c, FOX_REFUSED_TAG);
        message[place] ^= bit;
    }
}

/* The tag of the bytes after the periods is put into `stored`, and held to that of the whole. */
static void made(const struct engine *engine, struct call c, size_t end, uint8_t *stored)
{
    uint8_t found[FOX128_BLOCK];
    struct call rest = c;
    rest.data = c.data + end, rest.data_len = c.data_len - end, rest.out = stored;
    c.out = found;
    check_answer(another(engine), MAKE_TAG, &rest, FOX_SERVED);
    check_answer(engine, MAKE_TAG, &c, FOX_SERVED);
    if (case_wrong(memcmp(found, stored, c.out_len) == 0))
        printf("%s, cipher %u: a message of %zu bytes has another tag than its last %zu bytes\n", engine->name,
               (unsigned)c.cipher, c.data_len, rest.data_len);
}

/* After the periods come a part of a block, a whole one, and one with a part. */
static void of_cipher(const struct engine *engine, uint32_t cipher)
{
    const size_t b = block_of(cipher), period = PERIOD * b, end = engine->work / FOX_LEAST_ROUNDS / period * period;
    uint8_t key[FOX_MOST_KEY], stored[FOX128_BLOCK], *message = malloc(end + 2 * b);
    struct call c = {cipher, FOX_LEAST_ROUNDS, key, below(FOX_MOST_KEY + 1), stored, b, 0, message, 0, NULL, b};
    if (message == NULL || end < 2 * period)
        abort();
    fill(key, sizeof key);
    make_period(engine, c, message);
    for (size_t at = period; at < end; at += period)
        memcpy(message + at, message, period);
    fill(message + end, 2 * b);
    for (size_t rest = 1; rest < 2 * b; rest += b - 1) {
        c.data_len = end + rest;
        made(engine, c, end, stored);
    }
    tested(engine, &c, message);
    free(message);
}

void long_messages(const struct engine *engine)
{
    group_begin("long messages: %s", engine->name);
    of_cipher(engine, FOX64);
    of_cipher(engine, FOX128);
    group_end();
}
