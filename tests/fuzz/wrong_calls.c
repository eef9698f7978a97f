/* Stands before some of the station's exports, by the linker's --wrap, and puts the one fault named by FAULT into
 * them, so that one sees whether the fuzzer finds it. */
#include "fox.h"

#include <string.h>

enum {
    BYTE_WRONG = 1,
    REFUSALS_EXCHANGED,
    SUM_WRAPS,
    CARRY_LOST,
    UPPER_CARRY_LOST,
    LAST_LENGTH_REFUSED,
    CIPHER_CUT,
    MOST_ROUNDS_WRONG,
    REFUSED_WRITES,
    KEY_READ_AFTER,
    MESSAGE_CUT,
    LAST_BYTE_UNTESTED,
    SIXTEEN_REFUSED,
    FIFTEEN_SERVED,
    SHORT_KEY_EARLY,
    SHORT_KEY_LATE,
    OPENING_REFUSED,
    TAG_REFUSED
};

#define RUN_PARAMETERS                                                                                       \
    uint32_t cipher, uint32_t rounds, const uint8_t *key, size_t key_len, const uint8_t *counter,             \
        size_t counter_len, uint64_t offset, const uint8_t *data, size_t data_len, uint8_t *out, size_t out_len
#define RUN_ARGUMENTS cipher, rounds, key, key_len, counter, counter_len, offset, data, data_len, out, out_len

uint32_t __real_fox_server_seal_run(RUN_PARAMETERS);
uint32_t __wrap_fox_server_seal_run(RUN_PARAMETERS);
uint32_t __real_fox_server_open_run(RUN_PARAMETERS);
uint32_t __wrap_fox_server_open_run(RUN_PARAMETERS);
uint32_t __real_fox_card_open_block(uint32_t cipher, uint32_t rounds, const uint8_t *key, size_t key_len,
                                    const uint8_t *block, size_t block_len, uint8_t *out, size_t out_len);
uint32_t __wrap_fox_card_open_block(uint32_t cipher, uint32_t rounds, const uint8_t *key, size_t key_len,
                                    const uint8_t *block, size_t block_len, uint8_t *out, size_t out_len);
uint32_t __real_fox_server_make_tag(uint32_t cipher, uint32_t rounds, const uint8_t *key, size_t key_len,
                                    const uint8_t *message, size_t message_len, uint8_t *tag, size_t tag_len);
uint32_t __wrap_fox_server_make_tag(uint32_t cipher, uint32_t rounds, const uint8_t *key, size_t key_len,
                                    const uint8_t *message, size_t message_len, uint8_t *tag, size_t tag_len);
uint32_t __real_fox_card_test_tag(uint32_t cipher, uint32_t rounds, const uint8_t *key, size_t key_len,
                                  const uint8_t *message, size_t message_len, const uint8_t *tag, size_t tag_len);
uint32_t __wrap_fox_card_test_tag(uint32_t cipher, uint32_t rounds, const uint8_t *key, size_t key_len,
                                  const uint8_t *message, size_t message_len, const uint8_t *tag, size_t tag_len);

/* Whether something is carried out of the counter's last word before the last byte of a run. */
static int carries(const uint8_t *counter, size_t counter_len, uint64_t last)
{
    uint64_t count = 0;
    for (size_t i = counter_len - 4; i < counter_len; i++)
        count = count << 8 | counter[i];
    return count + last / counter_len > UINT32_MAX;
}

/* Whether all words between the first and the last are ones, so that what is carried goes on into the first. */
static int carries_on(const uint8_t *counter, size_t counter_len)
{
    for (size_t i = 4; i < counter_len - 4; i++)
        if (counter[i] != 0xFF)
            return 0;
    return counter_len > FOX64_BLOCK;
}

/* Whether a served run gets one byte changed. */
static int spoilt(const uint8_t *counter, size_t counter_len, uint64_t offset, size_t data_len)
{
    if (FAULT == BYTE_WRONG)
        return offset % 8 == 3 && data_len > 40;
    if (data_len == 0 || !carries(counter, counter_len, offset + data_len - 1))
        return 0;
    return FAULT == CARRY_LOST || (FAULT == UPPER_CARRY_LOST && carries_on(counter, counter_len));
}

/* The faults that a run has in either direction, in what the library has answered. */
static uint32_t spoilt_run(uint32_t answer, const uint8_t *counter, size_t counter_len, uint64_t offset,
                           size_t data_len, uint8_t *out, size_t out_len)
{
    if (FAULT == REFUSALS_EXCHANGED && answer == FOX_REFUSED_DATA && out_len != data_len)
        return FOX_REFUSED_OUTPUT;
    if (FAULT == SUM_WRAPS && answer == FOX_REFUSED_END && offset + data_len <= FOX_RUN_END)
        return FOX_SERVED;
    if (FAULT == LAST_LENGTH_REFUSED && data_len == FOX_MOST_DATA && answer == FOX_SERVED)
        return FOX_REFUSED_DATA;
    if (answer == FOX_SERVED && spoilt(counter, counter_len, offset, data_len))
        out[data_len - 1] ^= 1;
    return answer;
}

uint32_t __wrap_fox_server_seal_run(RUN_PARAMETERS)
{
    uint32_t answer = __real_fox_server_seal_run(RUN_ARGUMENTS);
    if (FAULT == SIXTEEN_REFUSED && answer == FOX_SERVED && key_len == FOX_LEAST_SEAL_KEY)
        return FOX_REFUSED_SHORT_KEY;
    if (FAULT == FIFTEEN_SERVED && answer == FOX_REFUSED_SHORT_KEY && key_len == FOX_LEAST_SEAL_KEY - 1)
        return __real_fox_server_open_run(RUN_ARGUMENTS);
    if (FAULT == SHORT_KEY_LATE && answer == FOX_REFUSED_SHORT_KEY && counter_len != cipher / 8)
        return FOX_REFUSED_BLOCK;
    if (FAULT == SHORT_KEY_EARLY && answer == FOX_REFUSED_ROUNDS && key_len < FOX_LEAST_SEAL_KEY)
        return FOX_REFUSED_SHORT_KEY;
    return spoilt_run(answer, counter, counter_len, offset, data_len, out, out_len);
}

uint32_t __wrap_fox_server_open_run(RUN_PARAMETERS)
{
    uint32_t answer = __real_fox_server_open_run(RUN_ARGUMENTS);
    if (FAULT == OPENING_REFUSED && answer == FOX_SERVED && key_len < FOX_LEAST_SEAL_KEY)
        return FOX_REFUSED_SHORT_KEY;
    return spoilt_run(answer, counter, counter_len, offset, data_len, out, out_len);
}

uint32_t __wrap_fox_card_open_block(uint32_t cipher, uint32_t rounds, const uint8_t *key, size_t key_len,
                                    const uint8_t *block, size_t block_len, uint8_t *out, size_t out_len)
{
    uint32_t looked_at = FAULT == CIPHER_CUT ? cipher & 0xFFFF : cipher;
    uint32_t answer = __real_fox_card_open_block(looked_at, rounds, key, key_len, block, block_len, out, out_len);
    if (FAULT == MOST_ROUNDS_WRONG && rounds == FOX_MOST_ROUNDS && answer == FOX_SERVED)
        out[0] ^= 1;
    if (FAULT == REFUSED_WRITES && answer == FOX_REFUSED_OUTPUT && out_len > 0)
        out[0] = 0;
    if (FAULT == KEY_READ_AFTER && answer == FOX_SERVED && key[key_len] == 0x77)
        out[0] = 0;
    return answer;
}

uint32_t __wrap_fox_server_make_tag(uint32_t cipher, uint32_t rounds, const uint8_t *key, size_t key_len,
                                    const uint8_t *message, size_t message_len, uint8_t *tag, size_t tag_len)
{
    int cut = FAULT == MESSAGE_CUT && message_len <= FOX_MOST_MESSAGE;
    uint32_t answer = __real_fox_server_make_tag(cipher, rounds, key, key_len, message,
                                                 cut ? message_len & 0xFFFF : message_len, tag, tag_len);
    if (FAULT == TAG_REFUSED && answer == FOX_SERVED && key_len < FOX_LEAST_SEAL_KEY)
        return FOX_REFUSED_SHORT_KEY;
    return answer;
}

uint32_t __wrap_fox_card_test_tag(uint32_t cipher, uint32_t rounds, const uint8_t *key, size_t key_len,
                                  const uint8_t *message, size_t message_len, const uint8_t *tag, size_t tag_len)
{
    uint8_t right[FOX128_BLOCK];
    uint32_t answer = __real_fox_card_test_tag(cipher, rounds, key, key_len, message, message_len, tag, tag_len);
    if (FAULT != LAST_BYTE_UNTESTED || answer != FOX_REFUSED_TAG ||
        fox_card_make_tag(cipher, rounds, key, key_len, message, message_len, right, tag_len) != FOX_SERVED)
        return answer;
    return memcmp(right, tag, tag_len - 1) == 0 ? FOX_SERVED : answer;
}
