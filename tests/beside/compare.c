/* The proved library beside the second implementation: every case is one input, answered by both, and compared in
 * refusal and in every byte.
 * Usage: compare [SEED]. Last line: 'N passed, M failed', where each group of cases counts as one. */
#include "answers.h"
#include "beside.h"
#include "calls.h"
#include "chance.h"
#include "count.h"
#include "every_answer.h"
#include "faults.h"
#include "fox.h"
#include "groups.h"
#include "tally.h"

#include <inttypes.h>
#include <stdio.h>
#include <string.h>

/* As many of each length, and for runs a fifth as many. */
static void keys(void)
{
    group_begin("blocks and runs: keys of 0 to 33 bytes");
    for (size_t i = 0; i < (FOX_MOST_KEY + 2) * 2 * 250; i++) {
        struct call c = right_run(cipher_by(i), below(40), below(FOX_RUN_END - 40));
        c.key_len = i / 2 % (FOX_MOST_KEY + 2);
        if (i / 2 / (FOX_MOST_KEY + 2) % 5 == 0)
            try_run(&c);
        c.out_len = c.first_len;
        try_block(&c);
    }
    group_end();
}

static void rounds(void)
{
    static const uint32_t numbers[] = {0,   10,  11,       12,        13,         254,         255,
                                       256, 257, 12 + 256, 255 + 256, 12 + 65536, 0x8000000Cu, 0xFFFFFFFFu};
    static const size_t key_lens[] = {0, 15, 16, 17, 31, FOX_MOST_KEY, FOX_MOST_KEY + 1};
    group_begin("blocks: round counts");
    for (size_t i = 0; i < COUNT(numbers) * COUNT(key_lens) * 2; i++) {
        struct call c = right_block(cipher_by(i));
        c.key_len = key_lens[i / 2 % COUNT(key_lens)];
        c.rounds = numbers[i / 2 / COUNT(key_lens)];
        try_block(&c);
    }
    for (uint32_t i = 0; i < 245 * 2; i++) {
        struct call c = right_block(cipher_by(i));
        c.rounds = FOX_LEAST_ROUNDS - 1 + i / 2;
        try_block(&c);
    }
    group_end();
}

static void block_lengths(void)
{
    static const size_t lengths[] = {0, 1, 7, 8, 9, 15, 16, 17, 24, 31, 32, 33};
    group_begin("blocks: block and output at and around 0, B and 2B");
    for (size_t i = 0; i < COUNT(lengths) * COUNT(lengths) * 2 * 10; i++) {
        struct call c = right_block(cipher_by(i));
        c.first_len = lengths[i / 2 % COUNT(lengths)];
        c.out_len = lengths[i / 2 / COUNT(lengths) % COUNT(lengths)];
        try_block(&c);
    }
    group_end();
}

static void ciphers(void)
{
    group_begin("cipher numbers");
    for (size_t i = 0; i < WRONG_CIPHERS * 2; i++) {
        struct call c = right_run(cipher_by(i), below(40), below(100));
        c.cipher = wrong_ciphers[i / 2];
        try_run(&c);
        c.out_len = c.first_len;
        try_block(&c);
        try_tag(&c);
    }
    for (int i = 0; i < 2000; i++) {
        struct call c = right_block(some_cipher());
        c.cipher = (uint32_t)any_number() >> below(25);
        try_block(&c);
    }
    group_end();
}

/* Sums that go past 64 bits are among these, and sums that would be small if they wrapped. */
static void offsets_of(uint32_t cipher, size_t length)
{
    const uint64_t b = block_of(cipher), n = length, end = FOX_RUN_END, four_gib = 1ull << 32;
    const uint64_t offsets[] = {
        0, 1, b - 1, b, b + 1, 4 * b - 1, 4 * b, 5 * b + 1,
        end - n, end - n - 1, end - n + 1, end - 1, end, end + 1, end / 2 - 1,
        four_gib / 2, four_gib - n, four_gib - 1, four_gib, four_gib + b, four_gib + end,
        1ull << 63, end - n - four_gib, 0 - n, 0 - n - 1, 1 - n, b - n, UINT64_MAX - 1, UINT64_MAX,
    };
    for (size_t i = 0; i < COUNT(offsets); i++) {
        struct call c = right_run(cipher, length, offsets[i]);
        try_run(&c);
    }
}

static void runs(void)
{
    group_begin("runs: lengths at and around 0, B, 2B and 4B, offsets at and around every limit");
    for (uint32_t i = 0; i < 4; i++) {
        const uint32_t cipher = cipher_by(i);
        const size_t b = block_of(cipher), around[] = {b, 2 * b, 4 * b};
        offsets_of(cipher, 0);
        offsets_of(cipher, 1);
        for (size_t j = 0; j < COUNT(around); j++)
            for (size_t length = around[j] - 1; length <= around[j] + 1; length++)
                offsets_of(cipher, length);
        offsets_of(cipher, 9 * b + 3);
    }
    group_end();
}

/* The stretch lies where the counter's last word, or its last few, go from ones to zeros, wherever in the run that is. */
static void counters(void)
{
    group_begin("runs: counters with a carry out of each word");
    for (int i = 0; i < 1000; i++) {
        uint32_t cipher = some_cipher();
        uint64_t b = block_of(cipher), number = i % 2 == 0 ? below(4) : below(FOX_RUN_END / b - 8);
        struct call c = right_run(cipher, 1 + below(6 * b), number * b + below(b));
        uint32_t low = (uint32_t)(0 - number - below(6));
        size_t ones = 4 + 4 * below(b / 4);
        memset(given.first + b - ones, 0xFF, ones);
        for (size_t j = 1; j <= 4; j++, low >>= 8)
            given.first[b - j] = (uint8_t)low;
        try_run(&c);
    }
    group_end();
}

static void long_runs(void)
{
    static const size_t lengths[] = {FOX_MOST_DATA - 1, FOX_MOST_DATA, FOX_MOST_DATA + 1};
    group_begin("runs: as long as one call may be");
    for (size_t i = 0; i < COUNT(lengths) * 4; i++) {
        size_t n = lengths[i / 4];
        const uint64_t offsets[] = {0, 5, FOX_RUN_END - n, FOX_RUN_END - n + 1};
        for (size_t j = 0; j < COUNT(offsets); j++) {
            struct call c = right_run(cipher_by(i), n, offsets[j]);
            size_t up_to_16 = j % 2 == 0 ? FOX_LEAST_SEAL_KEY : below(FOX_LEAST_SEAL_KEY);
            c.key_len = i % 4 < 2 ? up_to_16 : 17 + below(16);
            c.out_len = j == 1 && i % 4 == 3 ? n - 1 : n;
            if (j < 2 || i % 4 < 2)
                try_run(&c);
        }
    }
    group_end();
}

static void damaged_blocks(void)
{
    group_begin("damaged calls: blocks");
    for (int i = 0; i < 30000; i++) {
        struct call c = right_block(some_cipher());
        damage_block(&c);
        if (i % 2 == 0)
            damage_block(&c);
        try_block(&c);
    }
    group_end();
}

static void damaged_runs(void)
{
    group_begin("damaged calls: runs");
    for (int i = 0; i < 30000; i++) {
        struct call c = right_run(some_cipher(), below(40), below(1000));
        damage_run(&c);
        if (i % 2 == 0)
            damage_run(&c);
        try_run(&c);
    }
    group_end();
}

static void mixtures(void)
{
    group_begin("mixtures");
    for (int i = 0; i < 20000; i++) {
        struct call c = right_run(some_cipher(), below(50), 0);
        c.offset = below(2) == 0 ? odd_offset(c.data_len) : below(FOX_RUN_END);
        c.rounds = below(4) == 0 ? odd_rounds() : c.rounds;
        c.key_len = below(36);
        if (i % 2 == 0) {
            c.out_len = below(8) == 0 ? below(50) : c.data_len;
            try_run(&c);
        } else {
            c.out_len = below(8) == 0 ? below(50) : c.first_len;
            try_block(&c);
        }
    }
    group_end();
}

/* What is to be seen here is how one bit spreads, so each call is made with and without the change. */
static void changed_bits(void)
{
    group_begin("one bit of the key, the block, the counter or the data changed");
    for (int i = 0; i < 1500; i++) {
        struct call c = right_run(some_cipher(), 1 + below(40), below(1000));
        uint8_t bit = (uint8_t)(1 << below(8));
        c.key_len = 1 + below(FOX_MOST_KEY);
        try_run(&c);
        uint8_t *where[] = {&given.key[below(c.key_len)], &given.first[below(c.first_len)],
                            &given.data[below(c.data_len)]};
        *where[i % 3] ^= bit;
        try_run(&c);
        c.out_len = c.first_len;
        try_block(&c);
    }
    group_end();
}

/* What was compared so far had every answer of a call among it. */
static void every_answer(void)
{
    static const uint32_t answers[] = {
        FOX_SERVED,         FOX_REFUSED_CIPHER,     FOX_REFUSED_ROUNDS, FOX_REFUSED_KEY,
        FOX_REFUSED_BLOCK,  FOX_REFUSED_DATA,       FOX_REFUSED_OUTPUT, FOX_REFUSED_END,
        FOX_REFUSED_TAG,    FOX_REFUSED_TAG_LENGTH, FOX_REFUSED_SHORT_KEY,
    };
    each_answered(answers, COUNT(answers));
}

int main(int count, char **words)
{
    static void (*const groups[])(void) = {
        keys,         rounds,   block_lengths, ciphers, runs,   counters,      long_runs,    damaged_blocks,
        damaged_runs, mixtures, changed_bits,  tags,    across, large_lengths, made_counters, every_answer,
    };
    if (count > 2) {
        fprintf(stderr, "usage: compare [SEED]\n");
        return 2;
    }
    tally_begin("compare");
    catch_faults();
    uint64_t seed = chance_begin(count > 1 ? words[1] : NULL);
    for (size_t i = 0; i < COUNT(groups); i++)
        groups[i]();
    printf("compare: ");
    show_answers();
    printf("compare: %ld cases, seed %" PRIu64 "\n", tally_cases(), seed);
    return tally_end();
}
