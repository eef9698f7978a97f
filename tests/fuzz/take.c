/* A fuzzer's input taken apart into a call. A choice of a kind below USUAL makes an argument that is served, and one
 * above it an odd one. */
#include "take.h"
#include "beside.h"
#include "fox.h"

#include <string.h>

enum { USUAL = 240, ODDER = 248, MANY_ROUNDS = 32 };

struct input {
    const uint8_t *at;
    size_t left;
};

struct choice {
    uint8_t kind;
    uint32_t number;
};

/* After the end of the input come zeros. */
static uint8_t take(struct input *in)
{
    if (in->left == 0)
        return 0;
    in->left--;
    return *in->at++;
}

static void take_bytes(struct input *in, uint8_t *bytes, size_t len)
{
    for (size_t i = 0; i < len; i++)
        bytes[i] = take(in);
}

static struct choice take_choice(struct input *in)
{
    struct choice c = {take(in), 0};
    for (int i = 1; i < CHOICE; i++)
        c.number = c.number << 8 | take(in);
    return c;
}

/* One bit changed: a number that would be right if only a part of it were looked at. */
static uint32_t one_bit_off(uint32_t right, uint32_t bit)
{
    return right ^ 1u << bit % 32;
}

static uint32_t cipher_of(struct choice c)
{
    uint32_t right = c.kind % 2 == 0 ? FOX64 : FOX128;
    if (c.kind < USUAL)
        return right;
    return c.kind < ODDER ? one_bit_off(right, c.number) : c.number;
}

/* Few rounds most often, since many take their time. */
static uint32_t rounds_of(struct choice c)
{
    uint32_t few = FOX_LEAST_ROUNDS + c.kind % 6;
    if (c.kind < 216)
        return few;
    if (c.kind < 220)
        return FOX_MOST_ROUNDS;
    if (c.kind < USUAL)
        return FOX_LEAST_ROUNDS + c.number % (FOX_MOST_ROUNDS - FOX_LEAST_ROUNDS + 1);
    if (c.kind < ODDER)
        return one_bit_off(few, c.number);
    return c.kind % 2 == 0 ? c.number % 512 : c.number;
}

/* An odd one is most often too short to seal with, by one byte every other time, and else too long. */
static size_t key_len_of(struct choice c, int seals)
{
    size_t least = seals ? FOX_LEAST_SEAL_KEY : 0;
    if (c.kind < USUAL)
        return least + c.kind % (FOX_MOST_KEY + 1 - least);
    if (c.kind < ODDER + 4)
        return c.kind % 2 == 0 ? FOX_LEAST_SEAL_KEY - 1 : c.number % FOX_LEAST_SEAL_KEY;
    return FOX_MOST_KEY + 1 + c.number % (SHORT_ROOM - FOX_MOST_KEY);
}

static size_t first_len_of(struct choice c, uint32_t cipher)
{
    if (c.kind < USUAL)
        return cipher == FOX128 ? FOX128_BLOCK : FOX64_BLOCK;
    return c.number % (SHORT_ROOM + 1);
}

/* Short most often, and now and then up to the most that a call takes, or more; but never long together with many
 * rounds, since that would take seconds. */
static size_t data_len_of(struct choice c, uint32_t rounds)
{
    if (c.kind < 160)
        return c.kind;
    if (c.kind < ODDER)
        return c.number % (rounds < MANY_ROUNDS ? 1024 : 256);
    if (c.kind < ODDER + 2 && rounds < MANY_ROUNDS)
        return FOX_MOST_DATA - c.number % (c.kind % 2 == 0 ? 4 : FOX_MOST_DATA);
    return FOX_MOST_DATA + 1 + c.number % 4;
}

/* As for data, but for the longest ones; above the limit at its edge, and at that of 64 bits. */
static size_t message_len_of(struct choice c, uint32_t rounds)
{
    if (c.kind < ODDER)
        return data_len_of(c, rounds);
    if (c.kind < ODDER + 2 && rounds < MANY_ROUNDS)
        return FOX_MOST_DATA + 2 - c.number % 4;
    return c.kind % 2 == 0 ? (size_t)FOX_MOST_MESSAGE + 1 + c.number % 4 : SIZE_MAX - c.number;
}

/* The edges are the run's end, and those of 32 and 64 bits, from where a sum with the length would wrap. */
static uint64_t offset_of(struct choice low, struct choice high, size_t data_len)
{
    if (low.kind < 128)
        return low.number % (low.kind % 2 == 0 ? 256 : 65536);
    if (low.kind < 192)
        return low.number % FOX_RUN_END;
    if (low.kind < USUAL)
        return FOX_RUN_END + UINT64_C(2) - data_len - low.number % 256;
    if (low.kind < ODDER)
        return UINT64_C(2) - data_len - low.number % 256;
    return (uint64_t)high.number << 32 | (low.kind % 2 == 0 ? low.number % 256 : low.number);
}

static size_t out_len_of(struct choice c, size_t right)
{
    if (c.kind < USUAL)
        return right;
    if (c.kind < ODDER)
        return c.kind % 2 == 0 && right > 0 ? right - 1 : right + 1;
    return c.number % 256;
}

/* In a third of the runs the counter's last words are ones, but for four bits, so that a carry out of them is near. */
static void take_counter(struct choice c, uint8_t *counter, size_t len)
{
    size_t ones = 4 + c.number % 4 * 4;
    if (c.kind < 160 || len < ones)
        return;
    memset(counter + len - ones, 0xFF, ones);
    counter[len - 1] ^= (uint8_t)(c.number >> 4 & 0x0F);
}

/* What is left of the input, again and again, and each time another. */
static void take_data(const struct input *in, uint8_t *data, size_t len)
{
    for (size_t i = 0; i < len; i++)
        data[i] = in->left == 0 ? (uint8_t)(i * 29) : (uint8_t)(in->at[i % in->left] + i / in->left);
}

/* The message's own tag by the second implementation most often, or that with one bit changed, in every other case of
 * its last byte; the rest stay as they were taken. */
static void take_stored(struct choice c, const struct call *test, uint8_t *stored)
{
    struct call make = *test;
    make.out = stored;
    make.out_len = block_of(test->cipher);
    if (c.kind >= ODDER || second_answer(MAKE_TAG, &make) != FOX_SERVED || c.kind < 96)
        return;
    stored[c.kind % 2 == 0 ? make.out_len - 1 : c.number / 8 % make.out_len] ^= (uint8_t)(1 << c.number % 8);
}

size_t data_behind(const struct call *c)
{
    return c->data_len <= LONG_ROOM ? c->data_len : 0;
}

struct job take_job(const uint8_t *bytes, size_t len)
{
    static uint8_t key[SHORT_ROOM], first[SHORT_ROOM], data[LONG_ROOM];
    struct choice made[CHOICES];
    struct input in = {bytes, len};
    for (int i = 0; i < CHOICES; i++)
        made[i] = take_choice(&in);
    struct job job = {.verb = (enum verb)(made[WHICH].kind % VERBS)};
    struct call *c = &job.call;
    const struct verb_kind *kind = &verbs[job.verb];
    c->key = key, c->first = first, c->data = data;
    job.back = &engines[made[WHICH].kind / VERBS % ENGINES];
    c->cipher = cipher_of(made[CIPHER]);
    c->rounds = rounds_of(made[ROUNDS]);
    c->key_len = key_len_of(made[KEY_LEN], kind->seals);
    if (kind->first != NULL)
        c->first_len = first_len_of(made[FIRST_LEN], c->cipher);
    if (kind->data != NULL)
        c->data_len = kind->at_offset ? data_len_of(made[DATA_LEN], c->rounds)
                                      : message_len_of(made[DATA_LEN], c->rounds);
    if (kind->at_offset)
        c->offset = offset_of(made[OFFSET], made[OFFSET_HIGH], c->data_len);
    if (kind->out != NULL)
        c->out_len = out_len_of(made[OUT_LEN], right_out_len(job.verb, c));
    take_bytes(&in, key, c->key_len);
    take_bytes(&in, first, c->first_len);
    if (kind->at_offset)
        take_counter(made[FIRST_LEN], first, c->first_len);
    take_data(&in, data, data_behind(c));
    if (job.verb == TEST_TAG)
        take_stored(made[STORED], c, first);
    return job;
}
