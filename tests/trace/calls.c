/* The groups of calls, and how they are made. */
#include "chance.h"
#include "count.h"
#include "fox.h"
#include "trace.h"

#include <string.h>

enum { MOST_CALLS = 8, MOST_DATA = 40, SEED = 7 };

/* A run begins and ends inside a block. Tags that are made are then tested, as they are and spoilt. A key that is too
 * short to seal with opens alone; its length says so, which is public. */
#define OPENED(cipher, rounds, key_len) {OPEN, cipher, rounds, key_len, 0, 0, 0}
#define BLOCKS(cipher, rounds, key_len) {SEAL, cipher, rounds, key_len, 0, 0, 0}, OPENED(cipher, rounds, key_len)
#define OPENED_STRETCH(cipher, key_len, len) {OPEN_RUN, cipher, 12, key_len, 5, len, 0}
#define STRETCH(cipher, key_len, len) {SEAL_RUN, cipher, 12, key_len, 5, len, 0}, OPENED_STRETCH(cipher, key_len, len)
#define MADE(cipher, key_len, len) {MAKE_TAG, cipher, 12, key_len, 0, len, 0}
#define TESTED(cipher, key_len, len) \
    MADE(cipher, key_len, len), {TEST_TAG, cipher, 12, key_len, 0, len, 0}, {TEST_TAG, cipher, 12, key_len, 0, len, 1}

/* Keys of every schedule, padded and not; messages of no byte, of whole blocks, and of others. */
static const struct group whole[] = {
    OPENED(FOX64, 12, 5),
    BLOCKS(FOX64, 16, 16),
    BLOCKS(FOX64, 12, 17),
    BLOCKS(FOX64, 12, 32),
    OPENED(FOX128, 12, 5),
    BLOCKS(FOX128, 12, 16),
    BLOCKS(FOX128, 12, 17),
    BLOCKS(FOX128, 12, 32),
    OPENED_STRETCH(FOX64, 5, 8),
    STRETCH(FOX64, 16, 15),
    STRETCH(FOX64, 17, 2),
    STRETCH(FOX64, 32, 2),
    OPENED_STRETCH(FOX128, 5, 2),
    STRETCH(FOX128, 16, 2),
    STRETCH(FOX128, 17, 8),
    STRETCH(FOX128, 32, 30),
    MADE(FOX64, 5, 0),
    MADE(FOX64, 17, 3),
    MADE(FOX128, 5, 0),
    MADE(FOX128, 17, 7),
    TESTED(FOX64, 16, 11),
    TESTED(FOX64, 32, 8),
    TESTED(FOX128, 16, 0),
    TESTED(FOX128, 32, 16),
};

static const struct group brief[] = {
    BLOCKS(FOX64, 12, 16), BLOCKS(FOX128, 12, 32), STRETCH(FOX64, 17, 2), TESTED(FOX64, 16, 3),
};

static const struct plan plans[] = {
    {"whole", whole, COUNT(whole), MOST_CALLS},
    {"brief", brief, COUNT(brief), 3},
};

const struct plan *plan_of(const char *name)
{
    for (size_t i = 0; i < COUNT(plans); i++)
        if (strcmp(plans[i].name, name) == 0)
            return &plans[i];
    return NULL;
}

static volatile int marked;

__attribute__((noinline)) void mark_before(void)
{
    marked = 1;
}

__attribute__((noinline)) void mark_after(void)
{
    marked = 2;
}

__attribute__((noinline)) void mark_wrong(void)
{
    marked = 3;
}

__attribute__((noinline)) void mark_end(void)
{
    marked = 4;
}

/* The buffers of every call, and what the calls of a group have put out, the tags for the next groups among it. */
static uint8_t key[FOX_MOST_KEY], first[FOX128_BLOCK], data[MOST_DATA], out[MOST_DATA];
static uint8_t outputs[MOST_CALLS][MOST_DATA];

/* Keys and data that are all zeros, all ones, of which one has many ones and the other few, and by chance. What is by chance goes
 * by cipher, key length and data length, so that a test has the key and message of the tag that was made. */
static void set_secrets(const struct group *g, size_t n)
{
    static const int of_key[] = {0x00, 0xFF, -1, 0x01, 0xFE}, of_data[] = {0x00, 0xFF, -1, 0xFF, 0x00};
    chance_from(SEED + n + 16 * (g->key_len + 64 * (g->data_len + 64 * g->cipher)));
    fill(key, sizeof key);
    fill(data, sizeof data);
    if (n < COUNT(of_key) && of_key[n] >= 0) {
        memset(key, of_key[n], sizeof key);
        memset(data, of_data[n], sizeof data);
    }
}

/* A stored tag is wrong in its first byte, its last, in all, in all but one, or in one other. */
static void spoil(uint8_t *tag, size_t len, size_t n)
{
    for (size_t i = 0; i < len; i++) {
        const int spoilt[MOST_CALLS] = {i == 0, i == len - 1, 1, i > 0, i < len - 1, i == 5, i == 6, i == len / 2};
        tag[i] ^= spoilt[n] ? 0x10 : 0;
    }
}

/* The counter is all ones, so that a run of more than one block carries. */
static struct call call_of(const struct group *g, size_t n)
{
    size_t block = block_of(g->cipher);
    struct call c = {g->cipher, g->rounds, key, g->key_len, first, block, g->offset, data, g->data_len, out, 0};
    c.out_len = right_out_len(g->verb, &c);
    set_secrets(g, n);
    memset(out, 0, sizeof out);
    if (verbs[g->verb].at_offset)
        memset(first, 0xFF, sizeof first);
    else if (g->verb == TEST_TAG)
        memcpy(first, outputs[n], block);
    else
        memcpy(first, data, block);
    if (g->wrong)
        spoil(first, block, n);
    return c;
}

/* What a test puts out, which is nothing, leaves the tags. */
static int is_new(const struct group *g, size_t len, size_t n)
{
    if (g->verb == TEST_TAG)
        return 1;
    memcpy(outputs[n], out, len);
    for (size_t i = 0; i < n; i++)
        if (memcmp(outputs[i], out, len) == 0)
            return 0;
    return 1;
}

__attribute__((noinline)) static int one_call(const struct engine *engine, const struct group *g, size_t n)
{
    struct call c = call_of(g, n);
    mark_before();
    uint32_t answer = make_call(engine, g->verb, &c);
    mark_after();
    return answer == (g->wrong ? FOX_REFUSED_TAG : FOX_SERVED) && is_new(g, c.out_len, n);
}

size_t make_calls(const struct engine *engine, const struct plan *plan)
{
    size_t wrong = 0;
    for (size_t i = 0; i < plan->count; i++)
        for (size_t n = 0; n < plan->calls; n++)
            if (!one_call(engine, &plan->groups[i], n)) {
                mark_wrong();
                wrong++;
            }
    mark_end();
    return wrong;
}
