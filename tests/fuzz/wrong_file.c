/* Stands before the exports on run files, by the linker's --wrap, and puts the one fault named by FAULT into them, so
 * that one sees whether the fuzzer finds it. */
#define _GNU_SOURCE
#include "exact.h"
#include "fox.h"

#include <ctype.h>
#include <string.h>

enum {
    ZERO_BEFORE_LENGTH = 1,
    ANY_SCAN_NUMBER,
    FEED_AFTER_CLOSE,
    SMALL_DIGIT_IN_CLOSE,
    TAG_BYTE_UNTESTED,
    REFUSED_PLACE_STAYS,
    FILE_READ_AFTER,
    REFUSED_READ_MOVES,
    LONGER_BUFFER_SERVED,
    END_COUNTS,
    OFFSET_LOST,
    TENTH_SCAN_WRONG,
    SUM_UNTESTED,
    WRITES_AFTER_FILE,
    SIXTEEN_NOT_WRITTEN,
    SHORT_KEY_WRITTEN,
    SHORT_KEY_LATE,
    OLD_FILE_REFUSED,
    OLD_SCAN_REFUSED
};

uint32_t __real_fox_file_take_up(uint32_t cipher, uint32_t rounds, const uint8_t *key, size_t key_len,
                                 const uint8_t *file, size_t file_len, uint64_t *place);
uint32_t __wrap_fox_file_take_up(uint32_t cipher, uint32_t rounds, const uint8_t *key, size_t key_len,
                                 const uint8_t *file, size_t file_len, uint64_t *place);
uint32_t __real_fox_file_read(uint32_t cipher, uint32_t rounds, const uint8_t *key, size_t key_len,
                              const uint8_t *file, size_t file_len, uint64_t *place, uint8_t *out, size_t out_len,
                              uint64_t *count);
uint32_t __wrap_fox_file_read(uint32_t cipher, uint32_t rounds, const uint8_t *key, size_t key_len,
                              const uint8_t *file, size_t file_len, uint64_t *place, uint8_t *out, size_t out_len,
                              uint64_t *count);
void __real_fox_file_skip(const uint8_t *file, size_t file_len, uint64_t *place);
void __wrap_fox_file_skip(const uint8_t *file, size_t file_len, uint64_t *place);
uint32_t __real_fox_file_write(uint32_t cipher, uint32_t rounds, const uint8_t *key, size_t key_len,
                               const uint8_t *counter, size_t counter_len, const uint8_t *data, size_t data_len,
                               const uint64_t *lengths, size_t scans, uint8_t *out, size_t out_len, uint64_t *count);
uint32_t __wrap_fox_file_write(uint32_t cipher, uint32_t rounds, const uint8_t *key, size_t key_len,
                               const uint8_t *counter, size_t counter_len, const uint8_t *data, size_t data_len,
                               const uint64_t *lengths, size_t scans, uint8_t *out, size_t out_len, uint64_t *count);

/* A zero before a scan's length is left out, and a scan's number that is one too high is made right. */
static void mend_text(struct exact *e)
{
    uint8_t *zero = memmem(e->at, e->len, "bytes=0", 7);
    uint8_t *second = memmem(e->at, e->len, "\nscan=3\n", 8);
    if (FAULT == ZERO_BEFORE_LENGTH && zero != NULL && zero + 7 < e->at + e->len && isdigit(zero[7])) {
        memmove(zero + 6, zero + 7, (size_t)(e->at + e->len - zero) - 7);
        e->len--;
    }
    if (FAULT == ANY_SCAN_NUMBER && second != NULL && memmem(e->at, e->len, "\nscan=2\n", 8) == NULL)
        second[6] = '2';
}

static void put_tag(uint8_t *digits, const uint8_t *tag, size_t block)
{
    for (size_t i = 0; i < 2 * block; i++)
        digits[i] = (uint8_t)"0123456789ABCDEF"[tag[i / 2] >> (i % 2 == 0 ? 4 : 0) & 15];
}

/* What is mended before the line `close` has another tag, which goes there where the old one was right. */
static void mend(struct exact *e, uint32_t cipher, uint32_t rounds, const uint8_t *key, size_t key_len)
{
    uint8_t tag[FOX128_BLOCK], right[2 * FOX128_BLOCK];
    size_t block = cipher == FOX64 ? FOX64_BLOCK : FOX128_BLOCK, line = 2 * block + 7;
    if (e->len < line ||
        fox_server_make_tag(cipher, rounds, key, key_len, e->at, e->len - line, tag, block) != FOX_SERVED)
        return;
    put_tag(right, tag, block);
    if (memcmp(e->at + e->len - line + 6, right, 2 * block - (FAULT == TAG_BYTE_UNTESTED)) != 0)
        return;
    mend_text(e);
    if (fox_server_make_tag(cipher, rounds, key, key_len, e->at, e->len - line, tag, block) == FOX_SERVED)
        put_tag(e->at + e->len - line + 6, tag, block);
}

uint32_t __wrap_fox_file_take_up(uint32_t cipher, uint32_t rounds, const uint8_t *key, size_t key_len,
                                 const uint8_t *file, size_t file_len, uint64_t *place)
{
    const uint64_t before = place[0];
    struct exact e = exact_copy(file, file_len);
    if (FAULT == ZERO_BEFORE_LENGTH || FAULT == ANY_SCAN_NUMBER || FAULT == TAG_BYTE_UNTESTED)
        mend(&e, cipher, rounds, key, key_len);
    if (FAULT == FEED_AFTER_CLOSE && e.len > 2 && memcmp(e.at + e.len - 2, "\n\n", 2) == 0)
        e.len--;
    for (size_t i = 2; FAULT == SMALL_DIGIT_IN_CLOSE && i < 8 && i < e.len; i++)
        e.at[e.len - i] = (uint8_t)(e.at[e.len - i] >= 'a' && e.at[e.len - i] <= 'f' ? toupper(e.at[e.len - i])
                                                                                      : e.at[e.len - i]);
    uint32_t answer = __real_fox_file_take_up(cipher, rounds, key, key_len, e.at, e.len, place);
    exact_free(&e);
    if (FAULT == REFUSED_PLACE_STAYS && answer == FOX_REFUSED_TAG)
        place[0] = before;
    if (FAULT == FILE_READ_AFTER && answer == FOX_SERVED && file[file_len] == 0x77)
        place[0] = before;
    if (FAULT == OLD_FILE_REFUSED && answer == FOX_SERVED && key_len < FOX_LEAST_SEAL_KEY) {
        place[0] = UINT64_MAX;
        return FOX_REFUSED_SHORT_KEY;
    }
    return answer;
}

uint32_t __wrap_fox_file_read(uint32_t cipher, uint32_t rounds, const uint8_t *key, size_t key_len,
                              const uint8_t *file, size_t file_len, uint64_t *place, uint8_t *out, size_t out_len,
                              uint64_t *count)
{
    const uint64_t next = fox_file_next_length(file, file_len, place), before = *count;
    size_t taken = FAULT == LONGER_BUFFER_SERVED && next < out_len ? (size_t)next : out_len;
    if (FAULT == OLD_SCAN_REFUSED && next == out_len && key_len < FOX_LEAST_SEAL_KEY) {
        *count = 0;
        return FOX_REFUSED_SHORT_KEY;
    }
    uint32_t answer = __real_fox_file_read(cipher, rounds, key, key_len, file, file_len, place, out, taken, count);
    if (FAULT == REFUSED_READ_MOVES && answer == FOX_REFUSED_OUTPUT)
        fox_file_skip(file, file_len, place);
    if (FAULT == END_COUNTS && next == FOX_NO_SCAN)
        *count = before;
    return answer;
}

void __wrap_fox_file_skip(const uint8_t *file, size_t file_len, uint64_t *place)
{
    const uint64_t offset = place[2];
    __real_fox_file_skip(file, file_len, place);
    if (FAULT == OFFSET_LOST && place[1] == 5)
        place[2] = offset;
}

uint32_t __wrap_fox_file_write(uint32_t cipher, uint32_t rounds, const uint8_t *key, size_t key_len,
                               const uint8_t *counter, size_t counter_len, const uint8_t *data, size_t data_len,
                               const uint64_t *lengths, size_t scans, uint8_t *out, size_t out_len, uint64_t *count)
{
    uint64_t sum = 0;
    for (size_t i = 0; i < scans; i++)
        sum += lengths[i];
    size_t taken = FAULT == SUM_UNTESTED && sum < data_len ? (size_t)sum : data_len;
    uint32_t answer = __real_fox_file_write(cipher, rounds, key, key_len, counter, counter_len, data, taken, lengths,
                                            scans, out, out_len, count);
    if (FAULT == TENTH_SCAN_WRONG && answer == FOX_SERVED && scans >= 10 && lengths[9] > 0)
        out[*count - 9 - (cipher == FOX64 ? 16 : 32) - 7] ^= 1;
    if (FAULT == WRITES_AFTER_FILE && answer == FOX_SERVED && *count < out_len)
        out[*count] = 0;
    if (FAULT == SIXTEEN_NOT_WRITTEN && answer == FOX_SERVED && key_len == FOX_LEAST_SEAL_KEY)
        return FOX_REFUSED_SHORT_KEY;
    if (FAULT == SHORT_KEY_WRITTEN && answer == FOX_REFUSED_SHORT_KEY)
        return fox_file_size(cipher, rounds, lengths, scans, count);
    if (FAULT == SHORT_KEY_LATE && answer == FOX_REFUSED_SHORT_KEY && counter_len != cipher / 8)
        return FOX_REFUSED_BLOCK;
    return answer;
}
