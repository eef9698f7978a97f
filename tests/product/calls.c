/* Makes every call that fox.h declares for an engine: four of the specification's vectors, or rows of tags, a refusal of
 * each number that the call gives, and the limits at which it still serves. Usage: calls, or calls names, which prints
 * the calls' names. */
#include "call.h"
#include "count.h"
#include "fox.h"
#include "hex.h"
#include "tally.h"

#include <stdio.h>
#include <string.h>

static const uint8_t key[64] = {0x00, 0x11, 0x22, 0x33, 0x44, 0x55, 0x66, 0x77,
                                0x88, 0x99, 0xAA, 0xBB, 0xCC, 0xDD, 0xEE, 0xFF};
static const uint8_t block[32] = {0x01, 0x23, 0x45, 0x67, 0x89, 0xAB, 0xCD, 0xEF,
                                  0xFE, 0xDC, 0xBA, 0x98, 0x76, 0x54, 0x32, 0x10};
static const struct vector {
    uint32_t cipher;
    size_t key_len;
    const char *sealed;
} sealed[] = {
    {FOX64, 8, "200E1F5847D8A2CE"},
    {FOX64, 16, "B85D6B766DCE952E"},
    {FOX128, 8, "1EECBC7DEB66E7DAE1A7876D90C0B239"},
    {FOX128, 16, "849E0F0682F50CD588AE073006A10BEE"},
};
static const struct tagged {
    uint32_t cipher;
    const char *key, *message, *tag;
} tagged[] = {
    {FOX64, "5F4C28FD51ACAE46BAECBB5916D904B8", "", "BBDD26DB66E0A7BC"},
    {FOX64, "3E700616F5284E9D5AED932C4CF550FF", "4CF0539E1DA8D44D", "91D02F4C7302892F"},
    {FOX128, "7EB3F964CA436E801FB1E603942E57C8", "", "E2C3C856F6521065E686E7CE66CA7BE5"},
    {FOX128, "A695DF641BF33A4385FA8BEDFC10304D", "5539EA2E26B2242F4A319763E04B8F92",
     "631813D5EA756ED3475E6C2E1230C780"},
};
static const uint8_t zeros[FOX_MOST_DATA + 1];
static uint8_t out[FOX_MOST_DATA + 1];

/* One of an engine's calls. */
struct one {
    const struct engine *engine;
    enum verb verb;
};

static void hold(int right, const char *what)
{
    if (case_wrong(right))
        printf("%s\n", what);
}

/* A call over zeros with these numbers in it. */
static struct call call_of(uint32_t cipher, uint32_t rounds, size_t key_len, size_t block_len, uint64_t offset,
                           size_t data_len, size_t out_len)
{
    return (struct call){cipher, rounds, key, key_len, block, block_len, offset, zeros, data_len, out, out_len};
}

static uint32_t made(struct one one, const struct call *c)
{
    return make_call(one.engine, one.verb, c);
}

/* The call is served, and puts out this answer and nothing beside it; but a key that is too short for it is refused, and
 * nothing is put out. */
static void comes_out(struct one one, const struct call *c, const uint8_t *answer)
{
    uint8_t right[FOX128_BLOCK + 1];
    uint32_t refusal = key_answer(one.verb, c->key_len);
    memset(out, 0x77, sizeof out);
    memset(right, 0x77, sizeof right);
    if (refusal == FOX_SERVED)
        memcpy(right, answer, c->out_len);
    hold(made(one, c) == refusal, "a vector is refused, or served with a short key");
    hold(memcmp(out, right, c->out_len + 1) == 0, "a vector comes out wrong");
}

/* A run over zeros is the sealed counter itself, so its first block is a vector too, and so is every part of it. */
static void sealed_vector(struct one one, const struct vector *v)
{
    uint8_t turned[FOX128_BLOCK];
    size_t size = block_of(v->cipher);
    struct call c = call_of(v->cipher, 16, v->key_len, size, 0, size, size);
    hex_read(v->sealed, turned, sizeof turned);
    c.first = one.verb == OPEN ? turned : block;
    comes_out(one, &c, one.verb == OPEN ? block : turned);
    if (!verbs[one.verb].at_offset)
        return;
    c.offset = 5, c.data_len = c.out_len = 3;
    comes_out(one, &c, turned + 5);
}

static void tag_made(struct one one, const struct call *c, const uint8_t *tag)
{
    memset(out, 0x77, sizeof out);
    hold(made(one, c) == FOX_SERVED, "a row is refused");
    hold(memcmp(out, tag, c->out_len) == 0 && out[c->out_len] == 0x77, "a row's tag comes out wrong");
}

static void tag_tested(struct one one, struct call c, const uint8_t *tag)
{
    uint8_t other[FOX128_BLOCK];
    memcpy(other, tag, c.first_len);
    other[c.first_len - 1] ^= 1;
    c.first = tag;
    hold(made(one, &c) == FOX_SERVED, "a row's tag is refused");
    c.first = other;
    hold(made(one, &c) == FOX_REFUSED_TAG, "another tag than a row's is served");
}

static void tag_row(struct one one, const struct tagged *row)
{
    uint8_t row_key[FOX_MOST_KEY], message[FOX128_BLOCK], tag[FOX128_BLOCK];
    size_t size = block_of(row->cipher);
    struct call c = call_of(row->cipher, 16, hex_read(row->key, row_key, sizeof row_key), size, 0,
                            hex_read(row->message, message, sizeof message), size);
    hex_read(row->tag, tag, sizeof tag);
    c.key = row_key, c.data = message;
    if (one.verb == MAKE_TAG)
        tag_made(one, &c, tag);
    else
        tag_tested(one, c, tag);
}

static void vectors(struct one one)
{
    if (one.verb == MAKE_TAG || one.verb == TEST_TAG) {
        for (size_t i = 0; i < COUNT(tagged); i++)
            tag_row(one, &tagged[i]);
    } else {
        for (size_t i = 0; i < COUNT(sealed); i++)
            sealed_vector(one, &sealed[i]);
    }
}

/* Of the message that is too long no byte is read. The stored tag is a block that is not the zeros' tag. */
static void refusals(struct one one)
{
    enum { SEALS = 1 << SEAL | 1 << SEAL_RUN, OPENS = 1 << OPEN | 1 << OPEN_RUN, RUNS = 1 << SEAL_RUN | 1 << OPEN_RUN };
    enum { TURNS = SEALS | OPENS, MAKES = 1 << MAKE_TAG, TESTS = 1 << TEST_TAG, ALL = TURNS | MAKES | TESTS };
    const struct {
        uint32_t number;
        unsigned given_by;
        struct call c;
    } spoilt[] = {
        {FOX_REFUSED_CIPHER, ALL, call_of(FOX64 + 1, 16, 16, 8, 0, 8, 8)},
        {FOX_REFUSED_ROUNDS, ALL, call_of(FOX64, FOX_LEAST_ROUNDS - 1, 16, 8, 0, 8, 8)},
        {FOX_REFUSED_ROUNDS, ALL, call_of(FOX64, FOX_MOST_ROUNDS + 1, 16, 8, 0, 8, 8)},
        {FOX_REFUSED_KEY, ALL, call_of(FOX64, 16, FOX_MOST_KEY + 1, 8, 0, 8, 8)},
        {FOX_REFUSED_ROUNDS, ALL, call_of(FOX64, FOX_LEAST_ROUNDS - 1, 0, FOX128_BLOCK, 0, 8, 8)},
        {FOX_REFUSED_SHORT_KEY, SEALS, call_of(FOX64, 16, 0, 8, 0, 8, 8)},
        {FOX_REFUSED_SHORT_KEY, SEALS, call_of(FOX64, 16, FOX_LEAST_SEAL_KEY - 1, FOX128_BLOCK, 0, 8, 8)},
        {FOX_REFUSED_BLOCK, OPENS, call_of(FOX64, 16, FOX_LEAST_SEAL_KEY - 1, FOX128_BLOCK, 0, 8, 8)},
        {FOX_REFUSED_BLOCK, TURNS, call_of(FOX64, 16, 16, FOX128_BLOCK, 0, 8, 8)},
        {FOX_REFUSED_BLOCK, TURNS, call_of(FOX128, 16, 16, FOX64_BLOCK, 0, 8, 8)},
        {FOX_REFUSED_DATA, RUNS, call_of(FOX64, 16, 16, 8, 0, FOX_MOST_DATA + 1, FOX_MOST_DATA + 1)},
        {FOX_REFUSED_DATA, MAKES | TESTS, call_of(FOX64, 16, 16, 8, 0, (size_t)FOX_MOST_MESSAGE + 1, 8)},
        {FOX_REFUSED_OUTPUT, TURNS | MAKES, call_of(FOX64, 16, 16, 8, 0, 8, 9)},
        {FOX_REFUSED_END, RUNS, call_of(FOX64, 16, 16, 8, FOX_RUN_END - 7, 8, 8)},
        {FOX_REFUSED_TAG_LENGTH, TESTS, call_of(FOX64, 16, 16, FOX128_BLOCK, 0, 8, 8)},
        {FOX_REFUSED_TAG_LENGTH, TESTS, call_of(FOX128, 16, 16, FOX64_BLOCK, 0, 8, 8)},
        {FOX_REFUSED_TAG, TESTS, call_of(FOX64, 16, 16, 8, 0, 8, 8)},
    };
    for (size_t i = 0; i < COUNT(spoilt); i++)
        if ((spoilt[i].given_by >> one.verb & 1) != 0) {
            memset(out, 0x77, sizeof out);
            uint32_t answer = made(one, &spoilt[i].c);
            int same = out[0] == 0x77 && memcmp(out, out + 1, sizeof out - 1) == 0;
            hold(answer == spoilt[i].number, fox_refusal_text(spoilt[i].number));
            hold(same, "a refused call has written");
        }
}

/* The tag that is tested is one that the engine makes itself. */
static void within(struct one one, struct call c)
{
    uint8_t stored[FOX128_BLOCK];
    struct call make = c;
    make.out = stored, make.out_len = block_of(c.cipher);
    if (one.verb == TEST_TAG) {
        hold(made((struct one){one.engine, MAKE_TAG}, &make) == FOX_SERVED, "no tag to test");
        c.first = stored;
    }
    c.out_len = right_out_len(one.verb, &c);
    hold(made(one, &c) == FOX_SERVED, "refused within the limits");
}

static void limits(struct one one)
{
    const size_t least_key = verbs[one.verb].seals ? FOX_LEAST_SEAL_KEY : 0;
    within(one, call_of(FOX64, FOX_LEAST_ROUNDS, least_key, FOX64_BLOCK, FOX_RUN_END - 8, 8, 0));
    within(one, call_of(FOX64, FOX_MOST_ROUNDS, FOX_MOST_KEY, FOX64_BLOCK, 0, 8, 0));
    within(one, call_of(FOX128, FOX_LEAST_ROUNDS, FOX_MOST_KEY, FOX128_BLOCK, 0, 16, 0));
    within(one, call_of(FOX64, FOX_LEAST_ROUNDS, 16, FOX64_BLOCK, 0, FOX_MOST_DATA, 0));
    within(one, call_of(FOX128, FOX_LEAST_ROUNDS, 16, FOX128_BLOCK, FOX_RUN_END, 0, 0));
}

/* A group of its own. */
static void try(struct one one)
{
    group_begin("fox_%s_%s", one.engine->name, verbs[one.verb].name);
    vectors(one);
    refusals(one);
    limits(one);
    group_end();
}

static void name(struct one one)
{
    printf("fox_%s_%s\n", one.engine->name, verbs[one.verb].name);
}

int main(int count, char **words)
{
    int names = count == 2 && strcmp(words[1], "names") == 0;
    tally_begin("calls");
    for (size_t i = 0; i < ENGINES; i++)
        for (enum verb verb = 0; verb < VERBS; verb++)
            (names ? name : try)((struct one){&engines[i], verb});
    return names ? 0 : tally_end();
}
