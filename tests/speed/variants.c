/* FOX64 and FOX128 by tables: runs of one to five blocks side by side, and tags. The first substitution of a round and
 * the diffusion are looked up in joined tables (TBSM); for the second substitution there are several kinds of lookup.
 * Every function is written once, over a number of blocks and a kind that are constants wherever it is inlined. BY is
 * what the compiler is called in the program. */
#include "variants.h"

#define INLINED static inline __attribute__((always_inline))

/* How the second substitution is looked up: in the S-box shifted to each place of a 32-bit word (TBS), byte by byte in
 * the S-box, or in the S-box shifted to each place of a 64-bit word. */
enum second { SHIFTED, BYTES, WIDE };

/* Does it for i from 0 on, as often as there are blocks. It is no loop, so that every compiler has the blocks in
 * registers. */
#define EACH(i, blocks, what) \
    do { \
        WITH(i, 0, what) \
        if ((blocks) > 1) \
            WITH(i, 1, what) \
        if ((blocks) > 2) \
            WITH(i, 2, what) \
        if ((blocks) > 3) \
            WITH(i, 3, what) \
        if ((blocks) > 4) \
            WITH(i, 4, what) \
    } while (0)
#define WITH(i, number, what) \
    { \
        enum { i = number }; \
        what; \
    }

static uint8_t box[256];
static uint32_t joined4[4][256], shifted4[4][256];
static uint64_t joined8[8][256], shifted8[8][256];

static void make_tables(void)
{
    for (int x = 0; x < 256; x++) {
        box[x] = plain_box((uint8_t)x);
        for (int i = 0; i < 4; i++) {
            shifted4[i][x] = (uint32_t)box[x] << (24 - 8 * i);
            joined4[i][x] = plain_mu4(shifted4[i][x]);
        }
        for (int i = 0; i < 8; i++) {
            shifted8[i][x] = (uint64_t)box[x] << (56 - 8 * i);
            joined8[i][x] = plain_mu8(shifted8[i][x]);
        }
    }
}

/* Words, and lookups in them. */

INLINED uint32_t upper(uint64_t w)
{
    return (uint32_t)(w >> 32);
}

INLINED uint64_t beside(uint32_t left, uint32_t right)
{
    return (uint64_t)left << 32 | right;
}

INLINED uint32_t look4(uint32_t table[4][256], uint32_t w)
{
    return table[0][w >> 24] ^ table[1][w >> 16 & 255] ^ table[2][w >> 8 & 255] ^ table[3][w & 255];
}

INLINED uint64_t look8(uint64_t table[8][256], uint64_t w)
{
    return table[0][w >> 56] ^ table[1][w >> 48 & 255] ^ table[2][w >> 40 & 255] ^ table[3][w >> 32 & 255] ^
           table[4][w >> 24 & 255] ^ table[5][w >> 16 & 255] ^ table[6][w >> 8 & 255] ^ table[7][w & 255];
}

INLINED uint32_t bytes4(uint32_t w)
{
    return (uint32_t)box[w >> 24] << 24 | (uint32_t)box[w >> 16 & 255] << 16 | (uint32_t)box[w >> 8 & 255] << 8 |
           box[w & 255];
}

/* The second substitution, and the left half of the round key after it. Words from shifted S-boxes of 32 bits take in
 * the key before they are put beside each other: clang makes faster code of that. */

INLINED uint32_t second4(uint32_t w, uint32_t left, enum second second)
{
    return (second == BYTES ? bytes4(w) : look4(shifted4, w)) ^ left;
}

INLINED uint64_t second8(uint64_t w, uint64_t left, enum second second)
{
    if (second == WIDE)
        return look8(shifted8, w) ^ left;
    if (second == BYTES)
        return beside(bytes4(upper(w)), bytes4((uint32_t)w)) ^ left;
    return beside(look4(shifted4, upper(w)) ^ upper(left), look4(shifted4, (uint32_t)w) ^ (uint32_t)left);
}

/* Blocks. The words X0 to X3 of FOX128 are held as X0 beside X2 and X1 beside X3, so that what comes out of the round
 * function is added to two words at once, and "or" goes over X0 and X2 at once. A state goes by its address: handed
 * over by value, two words of 32 bits would be packed into one register and taken apart again in each round. */

struct state64 {
    uint32_t l, r;
};

struct state128 {
    uint64_t even, odd;
};

INLINED uint32_t load4(const uint8_t *p)
{
    return (uint32_t)p[0] << 24 | (uint32_t)p[1] << 16 | (uint32_t)p[2] << 8 | p[3];
}

INLINED uint64_t load8(const uint8_t *p)
{
    return beside(load4(p), load4(p + 4));
}

INLINED void store4(uint8_t *p, uint32_t w)
{
    p[0] = (uint8_t)(w >> 24);
    p[1] = (uint8_t)(w >> 16);
    p[2] = (uint8_t)(w >> 8);
    p[3] = (uint8_t)w;
}

INLINED void store8(uint8_t *p, uint64_t w)
{
    store4(p, upper(w));
    store4(p + 4, (uint32_t)w);
}

INLINED uint64_t lefts(uint64_t a, uint64_t b)
{
    return beside(upper(a), upper(b));
}

INLINED uint64_t rights(uint64_t a, uint64_t b)
{
    return beside((uint32_t)a, (uint32_t)b);
}

INLINED void set64(struct state64 *s, uint64_t number)
{
    s->l = upper(number);
    s->r = (uint32_t)number;
}

INLINED void set128(struct state128 *s, uint64_t high, uint64_t low)
{
    s->even = lefts(high, low);
    s->odd = rights(high, low);
}

INLINED uint64_t bytes64(const struct state64 *s)
{
    return beside(s->l, s->r);
}

INLINED void add64(const struct state64 *s, const uint8_t *input, uint8_t *out)
{
    store8(out, bytes64(s) ^ load8(input));
}

INLINED void add128(const struct state128 *s, const uint8_t *input, uint8_t *out)
{
    store8(out, lefts(s->even, s->odd) ^ load8(input));
    store8(out + 8, rights(s->even, s->odd) ^ load8(input + 8));
}

/* Rounds. The last has no "or". */

INLINED void round64(struct state64 *s, uint64_t key, enum second second, int last)
{
    uint32_t left = upper(key), right = (uint32_t)key;
    uint32_t f = second4(look4(joined4, s->l ^ s->r ^ left) ^ right, left, second);
    s->l ^= f;
    s->r ^= f;
    if (!last)
        s->l = (s->l << 16 | s->l >> 16) ^ (s->l & 0xFFFF);
}

INLINED void round128(struct state128 *s, uint64_t left, uint64_t right, enum second second, int last)
{
    const uint64_t lower = 0x0000FFFF0000FFFF;
    uint64_t f = second8(look8(joined8, s->even ^ s->odd ^ left) ^ right, left, second);
    s->even ^= f;
    s->odd ^= f;
    if (!last)
        s->even = (s->even >> 16 & lower) ^ (s->even & lower) ^ (s->even & lower) << 16;
}

INLINED void seal64(const struct plain_key *k, struct state64 *s, int blocks, enum second second)
{
    uint32_t r = 0;
    for (; r + 1 < k->rounds; r++)
        EACH(i, blocks, round64(&s[i], k->keys[r], second, 0));
    EACH(i, blocks, round64(&s[i], k->keys[r], second, 1));
}

INLINED void seal128(const struct plain_key *k, struct state128 *s, int blocks, enum second second)
{
    const uint64_t *key = k->keys;
    for (uint32_t r = 1; r < k->rounds; r++, key += 2)
        EACH(i, blocks, round128(&s[i], key[0], key[1], second, 0));
    EACH(i, blocks, round128(&s[i], key[0], key[1], second, 1));
}

/* Whole groups of blocks from block `number` on. The counter is one number as wide as the block. */

INLINED void groups64(const struct plain_key *k, const uint8_t *counter, uint64_t number, const uint8_t *input,
                      size_t len, uint8_t *out, int blocks, enum second second)
{
    const size_t group = 8 * (size_t)blocks;
    uint64_t count = load8(counter) + number;
    for (; len > 0; len -= group, input += group, out += group, count += (uint64_t)blocks) {
        struct state64 s[MOST_BLOCKS];
        EACH(i, blocks, set64(&s[i], count + i));
        seal64(k, s, blocks, second);
        EACH(i, blocks, add64(&s[i], input + 8 * i, out + 8 * i));
    }
}

INLINED void groups128(const struct plain_key *k, const uint8_t *counter, uint64_t number, const uint8_t *input,
                       size_t len, uint8_t *out, int blocks, enum second second)
{
    const size_t group = 16 * (size_t)blocks;
    uint64_t low = load8(counter + 8) + number, high = load8(counter) + (low < number);
    for (; len > 0; len -= group, input += group, out += group) {
        struct state128 s[MOST_BLOCKS];
        EACH(i, blocks, set128(&s[i], high + (low + i < low), low + i));
        seal128(k, s, blocks, second);
        EACH(i, blocks, add128(&s[i], input + 16 * i, out + 16 * i));
        low += (uint64_t)blocks;
        high += low < (uint64_t)blocks;
    }
}

/* The part of a block that a run begins with, and what is no whole group at its end, go by the code of plain.c for one
 * block. */
INLINED void run(const struct plain_key *k, const uint8_t *counter, uint64_t offset, const uint8_t *input, size_t len,
                 uint8_t *out, int cipher, int blocks, enum second second)
{
    const size_t block = (size_t)cipher / 8, group = block * (size_t)blocks;
    size_t before = (size_t)(-offset % block), whole;
    before = before < len ? before : len;
    whole = (len - before) / group * group;
    const size_t done = before + whole;
    const uint64_t number = (offset + before) / block;
    plain_run_one(k, counter, offset, input, before, out);
    if (cipher == 64)
        groups64(k, counter, number, input + before, whole, out + before, blocks, second);
    else
        groups128(k, counter, number, input + before, whole, out + before, blocks, second);
    plain_run_one(k, counter, offset + done, input + done, len - done, out + done);
}

/* Tags: a chain of all blocks before the last, which is taken in with its subkey by plain.c. */

INLINED void tag64(const struct plain_key *k, const uint8_t *message, size_t len, uint8_t *tag, enum second second)
{
    struct state64 s = {0, 0};
    uint8_t chained[8];
    for (; len > 8; message += 8, len -= 8) {
        s.l ^= load4(message);
        s.r ^= load4(message + 4);
        seal64(k, &s, 1, second);
    }
    store8(chained, bytes64(&s));
    plain_tag_end(k, chained, message, len, tag);
}

INLINED void tag128(const struct plain_key *k, const uint8_t *message, size_t len, uint8_t *tag, enum second second)
{
    struct state128 s = {0, 0};
    uint8_t chained[16];
    for (; len > 16; message += 16, len -= 16) {
        s.even ^= beside(load4(message), load4(message + 8));
        s.odd ^= beside(load4(message + 4), load4(message + 12));
        seal128(k, &s, 1, second);
    }
    store8(chained, lefts(s.even, s.odd));
    store8(chained + 8, rights(s.even, s.odd));
    plain_tag_end(k, chained, message, len, tag);
}

/* The code of every kind, and what this compiler has made. */

#define RUN(cipher, second, blocks) \
    static void run##cipher##_##second##_##blocks(const struct plain_key *k, const uint8_t *counter, uint64_t offset, \
                                                  const uint8_t *input, size_t len, uint8_t *out) \
    { \
        run(k, counter, offset, input, len, out, cipher, blocks, second); \
    }

#define CODE(cipher, second) \
    RUN(cipher, second, 1) \
    RUN(cipher, second, 2) \
    RUN(cipher, second, 3) \
    RUN(cipher, second, 4) \
    RUN(cipher, second, 5) \
    static void tag##cipher##_##second(const struct plain_key *k, const uint8_t *message, size_t len, uint8_t *tag) \
    { \
        tag##cipher(k, message, len, tag, second); \
    }

#define KIND(cipher, name, second) \
    { \
        cipher, name, \
            {run##cipher##_##second##_1, run##cipher##_##second##_2, run##cipher##_##second##_3, \
             run##cipher##_##second##_4, run##cipher##_##second##_5}, \
            tag##cipher##_##second \
    }

#define JOINED(a, b) a##b
#define NAMED(a, b) JOINED(a, b)
#define QUOTED(word) #word
#define TEXT(word) QUOTED(word)

#ifdef __clang__
#define COMPILER "clang " TEXT(__clang_major__) "." TEXT(__clang_minor__) "." TEXT(__clang_patchlevel__)
#else
#define COMPILER "gcc " TEXT(__GNUC__) "." TEXT(__GNUC_MINOR__) "." TEXT(__GNUC_PATCHLEVEL__)
#endif

CODE(64, SHIFTED)
CODE(64, BYTES)
CODE(128, SHIFTED)
CODE(128, BYTES)
CODE(128, WIDE)

extern const struct variants NAMED(variants_, BY);
const struct variants NAMED(variants_, BY) = {
    TEXT(BY),
    COMPILER,
    make_tables,
    {KIND(64, "TBS", SHIFTED), KIND(64, "S-box bytes", BYTES), KIND(128, "TBS of 32 bits", SHIFTED),
     KIND(128, "S-box bytes", BYTES), KIND(128, "TBS of 64 bits", WIDE)},
};
