/* Counter blocks made from the numbers of runs: beside the second implementation, and as the runs that begin with them
 * count. */
#include "answers.h"
#include "call.h"
#include "chance.h"
#include "count.h"
#include "fox.h"
#include "groups.h"
#include "second.h"
#include "tally.h"

#include <inttypes.h>
#include <stdio.h>
#include <string.h>

enum { EDGE = 64, MOST = 40, PAINT = 0x5C };

static const uint32_t numbers[] = {0,      1,       41,       255,        256,        65535,      65536,
                                   65537, 0xFFFFFF, 0x1000000, 0x7FFFFFFF, 0x80000000, 0xFFFFFFFE, 0xFFFFFFFF};

/* Into the middle of painted bytes, all of which are compared. */
static void try_counter(uint32_t cipher, uint32_t number, size_t len)
{
    uint8_t right[EDGE + MOST + EDGE], found[EDGE + MOST + EDGE];
    memset(right, PAINT, sizeof right);
    memset(found, PAINT, sizeof found);
    uint32_t answer = second_counter(cipher, number, right + EDGE, len);
    uint32_t given = fox_counter(cipher, number, found + EDGE, len);
    count_answer(answer);
    if (case_wrong(answer == given && memcmp(right, found, sizeof right) == 0))
        printf("cipher %" PRIu32 ", number %" PRIu32 ", room of %zu bytes\n", cipher, number, len);
}

static void beside_second(void)
{
    static const uint32_t ciphers[] = {FOX64, FOX128, 0, 63, 65, 127, 129, 192, 64 + 65536, 0x80000040, UINT32_MAX};
    group_begin("counters made from numbers");
    for (size_t i = 0; i < COUNT(ciphers); i++)
        for (size_t len = 0; len <= MOST; len++)
            for (size_t j = 0; j < COUNT(numbers); j++)
                try_counter(ciphers[i], numbers[j], len);
    for (int i = 0; i < 10000; i++) {
        uint32_t cipher = below(2) == 0 ? FOX64 : FOX128;
        try_counter(cipher, (uint32_t)any_number(), block_of(cipher));
    }
    group_end();
}

/* The run's first and last block over zeros are these blocks sealed: the number, and the block's place after it. */
static void try_ends(const struct engine *engine, uint32_t cipher, uint32_t number)
{
    static const uint8_t key[16] = {7}, zeros[FOX128_BLOCK];
    size_t b = block_of(cipher);
    uint8_t counter[FOX128_BLOCK], block[FOX128_BLOCK] = {0}, sealed[FOX128_BLOCK], out[FOX128_BLOCK];
    int right = fox_counter(cipher, number, counter, b) == FOX_SERVED;
    for (int last = 0; last < 2; last++) {
        uint64_t place = last ? FOX_RUN_END / b - 1 : 0;
        for (size_t i = 0; i < 4; i++) {
            block[b - 8 + i] = (uint8_t)(number >> (24 - 8 * i));
            block[b - 4 + i] = (uint8_t)(place >> (24 - 8 * i));
        }
        right &= engine->seal(cipher, 16, key, sizeof key, block, b, sealed, b) == FOX_SERVED &&
                 engine->seal_run(cipher, 16, key, sizeof key, counter, b, place * b, zeros, b, out, b) == FOX_SERVED &&
                 memcmp(sealed, out, b) == 0;
    }
    if (case_wrong(right))
        printf("%s, cipher %" PRIu32 ", number %" PRIu32 "\n", engine->name, cipher, number);
}

static void ends_of_runs(void)
{
    group_begin("runs from numbers: their first and last counter blocks");
    for (size_t i = 0; i < ENGINES; i++)
        for (size_t j = 0; j < COUNT(numbers); j++) {
            try_ends(&engines[i], FOX64, numbers[j]);
            try_ends(&engines[i], FOX128, numbers[j]);
        }
    group_end();
}

void made_counters(void)
{
    beside_second();
    ends_of_runs();
}
