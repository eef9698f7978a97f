/* A counter block is one big-endian number as wide as the block, which counts up by one and wraps. */
#include "chance.h"
#include "check.h"
#include "count.h"
#include "run.h"
#include "setting.h"
#include "tally.h"

#include <string.h>

enum { BLOCKS = 16, MOST = BLOCKS * FOX128_BLOCK };

static void count_on(uint8_t *counter, size_t block, int64_t by)
{
    for (size_t i = block; i-- > 0;) {
        int64_t sum = counter[i] + by;
        counter[i] = (uint8_t)sum;
        by = (sum - counter[i]) / 256;
    }
}

/* Blocks of a run from number `from` on, each by itself: as block 0 of the run whose counter stands there. */
static void each_by_itself(const struct engine *engine, const struct setting *s, uint32_t from, size_t blocks,
                           const uint8_t *data, uint8_t *out)
{
    for (size_t i = 0; i < blocks; i++) {
        struct setting later = *s;
        count_on(later.counter, s->block, from + (int64_t)i);
        struct call c = call_of(&later, 0, data + i * s->block, s->block, out + i * s->block);
        check_answer(engine, s->sealing, &c, FOX_SERVED);
    }
}

/* The same in two calls, sealing and opening, the second of them from byte `cut` on. */
static void in_two(const struct engine *engine, const struct setting *s, uint32_t from, size_t len, size_t cut,
                   const uint8_t *data, const uint8_t *expected)
{
    static uint8_t out[MOST];
    uint64_t offset = (uint64_t)from * s->block;
    struct call all = call_of(s, offset, data, len, out);
    struct call first = call_of(s, offset, data, cut, out);
    struct call second = call_of(s, offset + cut, data + cut, len - cut, out + cut);
    memset(out, 0x77, sizeof out);
    check_answer(engine, s->sealing, &first, FOX_SERVED);
    check_answer(engine, OPEN_RUN, &second, FOX_SERVED);
    check_bytes(out, expected, engine, s->sealing, &all, "a stretch from its blocks under later counters");
}

/* The counter wraps, or carries, after the first `until` of the blocks: inside a call, between two calls, and a byte
 * beside their cut. */
static void follows(const struct engine *engine, const struct setting *s, uint32_t from, size_t blocks, size_t until)
{
    static uint8_t data[MOST], expected[MOST];
    size_t edge = until * s->block, len = blocks * s->block;
    const size_t cuts[] = {0, edge - 1, edge, edge + 1};
    fill(data, sizeof data);
    each_by_itself(engine, s, from, blocks, data, expected);
    for (size_t i = 0; i < COUNT(cuts); i++)
        in_two(engine, s, from, len, cuts[i], data, expected);
}

/* The last `words` words of the counter go from ones to zeros after each of the first 12 blocks of a stretch, which are
 * three times four, and in a stretch too short for four; at the run's beginning, anywhere, and at its end. */
static void carries(const struct engine *engine, uint32_t cipher, size_t words)
{
    for (uint32_t i = 1; i <= 12; i++) {
        struct setting s = some_setting(cipher), later;
        uint32_t last = (uint32_t)(FOX_RUN_END / s.block);
        uint32_t anywhere = (uint32_t)below(last - 3);
        s.rounds = FOX_LEAST_ROUNDS + i % 5;
        memset(s.counter + s.block - 4 * words, 0xFF, 4 * words);
        later = s;
        count_on(later.counter, s.block, 1 - (int64_t)i);
        follows(engine, &later, 0, 13, i);
        later = s;
        count_on(later.counter, s.block, -(int64_t)anywhere - i % 2);
        follows(engine, &later, anywhere, 3, 1 + i % 2);
        later = s;
        count_on(later.counter, s.block, 1 - (int64_t)(last - BLOCKS + i));
        follows(engine, &later, last - BLOCKS, BLOCKS, i);
    }
}

/* The example of 02, whose second counter block is written down here and not counted. */
static void example(const struct engine *engine, uint32_t cipher)
{
    static const uint8_t zeros[2 * FOX128_BLOCK];
    struct setting s = some_setting(cipher), next;
    uint8_t stream[2 * FOX128_BLOCK], expected[sizeof stream];
    memset(s.counter, 0, s.block);
    memset(s.counter + s.block - 4, 0xFF, 4);
    next = s;
    memset(next.counter, 0, s.block);
    next.counter[s.block - 5] = 1;
    struct call both = call_of(&s, 0, zeros, 2 * s.block, stream);
    struct call first = call_of(&s, 0, zeros, s.block, expected);
    struct call second = call_of(&next, 0, zeros, s.block, expected + s.block);
    check_answer(engine, s.sealing, &both, FOX_SERVED);
    check_answer(engine, s.sealing, &first, FOX_SERVED);
    check_answer(engine, OPEN_RUN, &second, FOX_SERVED);
    check_bytes(stream, expected, engine, s.sealing, &both, "the key stream from its two counter blocks sealed");
}

void counters(const struct engine *engine)
{
    group_begin("counters, 00000000FFFFFFFF followed by 0000000100000000: %s", engine->name);
    for (uint32_t cipher = FOX64; cipher <= FOX128; cipher += FOX64) {
        example(engine, cipher);
        for (size_t words = 1; words <= block_of(cipher) / 4; words++)
            carries(engine, cipher, words);
    }
    group_end();
}
