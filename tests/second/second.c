/* One block, a stretch of a run, and a tag, with the refusals of 01 and 02 before them. */
#include "second.h"
#include "cmac.h"
#include "parts.h"

#include <string.h>

enum { LEAST_SEAL_KEY = 16, MOST_DATA = 65536, RUN_END = 1073741824, MOST_MESSAGE = 1073741824 };

static size_t block_size(uint32_t cipher)
{
    return cipher / 8;
}

uint32_t second_key_refusal(uint32_t cipher, uint32_t rounds, size_t key_len)
{
    if (cipher != 64 && cipher != 128)
        return 1;
    if (rounds < 12 || rounds > MOST_ROUNDS)
        return 2;
    return key_len > MOST_KEY ? 3 : 0;
}

uint32_t second_turn_refusal(int opening, uint32_t cipher, uint32_t rounds, size_t key_len)
{
    uint32_t refusal = second_key_refusal(cipher, rounds, key_len);
    if (refusal != 0)
        return refusal;
    return !opening && key_len < LEAST_SEAL_KEY ? 13 : 0;
}

/* Refusals 1 to 3, 13 and 4, which a block and a run have in common. */
static uint32_t early_refusal(int opening, uint32_t cipher, uint32_t rounds, size_t key_len, size_t block_len)
{
    uint32_t refusal = second_turn_refusal(opening, cipher, rounds, key_len);
    if (refusal != 0)
        return refusal;
    return block_len != block_size(cipher) ? 4 : 0;
}

static uint32_t run_refusal(size_t data_len, size_t out_len, uint64_t offset)
{
    if (data_len > MOST_DATA)
        return 5;
    if (out_len != data_len)
        return 6;
    /* A difference, since the sum of the two can be too large for 64 bits. */
    return offset > RUN_END || data_len > RUN_END - offset ? 7 : 0;
}

uint32_t second_block_refusal(int opening, uint32_t cipher, uint32_t rounds, size_t key_len, size_t block_len,
                              size_t out_len)
{
    uint32_t refusal = early_refusal(opening, cipher, rounds, key_len, block_len);
    if (refusal != 0)
        return refusal;
    return out_len != block_len ? 6 : 0;
}

uint32_t second_block(int opening, uint32_t cipher, uint32_t rounds, const uint8_t *key, size_t key_len,
                      const uint8_t *block, size_t block_len, uint8_t *out, size_t out_len)
{
    uint8_t keys[MOST_ROUNDS * MOST_BLOCK];
    uint32_t refusal = second_block_refusal(opening, cipher, rounds, key_len, block_len, out_len);
    if (refusal != 0)
        return refusal;
    second_round_keys(keys, block_len, rounds, key, key_len);
    memcpy(out, block, block_len);
    if (opening)
        second_open_rounds(out, block_len, keys, rounds);
    else
        second_seal_rounds(out, block_len, keys, rounds);
    return 0;
}

/* The counter is one big-endian number as wide as the block; what is carried out of its first byte is dropped. */
static void counter_block(uint8_t *x, const uint8_t *counter, size_t block, uint64_t number)
{
    unsigned carry = 0;
    for (size_t i = block; i-- > 0; number >>= 8) {
        unsigned sum = counter[i] + (unsigned)(number & 0xFF) + carry;
        x[i] = (uint8_t)sum;
        carry = sum >> 8;
    }
}

uint32_t second_run(int opening, uint32_t cipher, uint32_t rounds, const uint8_t *key, size_t key_len,
                    const uint8_t *counter, size_t counter_len, uint64_t offset, const uint8_t *data, size_t data_len,
                    uint8_t *out, size_t out_len)
{
    uint8_t keys[MOST_ROUNDS * MOST_BLOCK], stream[MOST_BLOCK];
    uint32_t refusal = early_refusal(opening, cipher, rounds, key_len, counter_len);
    if (refusal == 0)
        refusal = run_refusal(data_len, out_len, offset);
    if (refusal != 0)
        return refusal;
    second_round_keys(keys, counter_len, rounds, key, key_len);
    for (size_t i = 0; i < data_len; i++) {
        uint64_t place = offset + i;
        if (i == 0 || place % counter_len == 0) {
            counter_block(stream, counter, counter_len, place / counter_len);
            second_seal_rounds(stream, counter_len, keys, rounds);
        }
        out[i] = data[i] ^ stream[place % counter_len];
    }
    return 0;
}

/* Byte by byte from the end: four zeros, the number from its lowest byte on, and zeros. */
uint32_t second_counter(uint32_t cipher, uint32_t number, uint8_t *counter, size_t counter_len)
{
    if (cipher != 64 && cipher != 128)
        return 1;
    if (counter_len != block_size(cipher))
        return 4;
    for (size_t back = 1; back <= counter_len; back++) {
        counter[counter_len - back] = back <= 4 ? 0 : (uint8_t)number;
        if (back > 4)
            number >>= 8;
    }
    return 0;
}

/* `other_length` is what a tag of another length than the block's is refused with. */
static uint32_t tag_refusal(uint32_t cipher, uint32_t rounds, size_t key_len, size_t message_len, size_t tag_len,
                            uint32_t other_length)
{
    uint32_t refusal = second_key_refusal(cipher, rounds, key_len);
    if (refusal != 0)
        return refusal;
    if (message_len > MOST_MESSAGE)
        return 5;
    return tag_len != block_size(cipher) ? other_length : 0;
}

struct round_keys {
    uint8_t keys[MOST_ROUNDS * MOST_BLOCK];
    size_t block, rounds;
};

static void seal(const void *context, uint8_t *x)
{
    const struct round_keys *k = context;
    second_seal_rounds(x, k->block, k->keys, k->rounds);
}

static void right_tag(uint8_t *tag, uint32_t cipher, uint32_t rounds, const uint8_t *key, size_t key_len,
                      const uint8_t *message, size_t message_len)
{
    struct round_keys k = {.block = block_size(cipher), .rounds = rounds};
    second_round_keys(k.keys, k.block, rounds, key, key_len);
    second_cmac(tag, k.block, seal, &k, message, message_len);
}

uint32_t second_make_tag(uint32_t cipher, uint32_t rounds, const uint8_t *key, size_t key_len, const uint8_t *message,
                         size_t message_len, uint8_t *tag, size_t tag_len)
{
    uint32_t refusal = tag_refusal(cipher, rounds, key_len, message_len, tag_len, 6);
    if (refusal == 0)
        right_tag(tag, cipher, rounds, key, key_len, message, message_len);
    return refusal;
}

uint32_t second_test_tag(uint32_t cipher, uint32_t rounds, const uint8_t *key, size_t key_len, const uint8_t *message,
                         size_t message_len, const uint8_t *tag, size_t tag_len)
{
    uint8_t right[MOST_BLOCK];
    uint32_t refusal = tag_refusal(cipher, rounds, key_len, message_len, tag_len, 9);
    if (refusal != 0)
        return refusal;
    right_tag(right, cipher, rounds, key, key_len, message, message_len);
    return memcmp(tag, right, tag_len) != 0 ? 10 : 0;
}
