/* Spoilt calls: of all that is wrong with one, what is looked for first is answered, with the register 0, and the output
 * stays as it was. */
#include "call.h"
#include "chance.h"
#include "groups.h"
#include "rooms.h"
#include "tally.h"
#include "try.h"

#include <inttypes.h>
#include <stdio.h>
#include <string.h>

#define FOUR_GIB ((size_t)1 << 32)

enum { MARGIN = 1 << 20 };

/* What can be wrong, as bits of a number, in the order in which it is looked for; and what is answered to each. */
enum { CIPHER = 1, ROUNDS = 2, LONG_KEY = 4, SHORT_KEY = 8, BLOCK = 16, OUTPUT = 32, FAULTS = 6 };
static const uint32_t numbers[FAULTS] = {FOX_REFUSED_CIPHER,    FOX_REFUSED_ROUNDS, FOX_REFUSED_KEY,
                                         FOX_REFUSED_SHORT_KEY, FOX_REFUSED_BLOCK,  FOX_REFUSED_OUTPUT};

/* Buffers of any length that is tried here. */
static uint8_t key[SETTING_ROOM], block[SETTING_ROOM], out[SETTING_ROOM];

/* One that is served, and most often has rounds to do. */
static struct part_call some_call(uint32_t sealing, uint32_t cipher)
{
    const size_t b = block_of(cipher);
    const uint32_t from = (uint32_t)below(FOX_LEAST_ROUNDS), until = from + (uint32_t)below(FOX_LEAST_ROUNDS);
    fill(key, sizeof key);
    fill(block, sizeof block);
    return (struct part_call){sealing, cipher, FOX_LEAST_ROUNDS + (uint32_t)below(30), key, some_key_len(sealing),
                              from, until, (uint32_t)any_number(), block, b, out, b};
}

/* A key that is to be too long and too short is too long. A wrong output may have the cipher's own length, where the block
 * has another. */
static void spoil(struct part_call *c, unsigned chosen)
{
    static const uint32_t ciphers[] = {0, 1, FOX64 - 1, FOX64 + 1, FOX128 - 1, FOX128 + 1, 256 + FOX64, 65536 + FOX128,
                                       UINT32_MAX};
    static const uint32_t rounds[] = {0, 1, FOX_LEAST_ROUNDS - 1, FOX_MOST_ROUNDS + 1, 256 + 16, 65536 + 16, UINT32_MAX};
    static const size_t long_keys[] = {FOX_MOST_KEY + 1, FOX_MOST_KEY + 2, SETTING_ROOM};
    static const size_t short_keys[] = {0, 1, 8, FOX_LEAST_SEAL_KEY - 2, FOX_LEAST_SEAL_KEY - 1};
    const size_t b = c->block_len, lens[] = {0, 1, b - 1, b + 1, FOX64_BLOCK + FOX128_BLOCK - b, 2 * b, SETTING_ROOM};
    c->cipher = chosen & CIPHER ? ONE_OF(ciphers) : c->cipher;
    c->rounds = chosen & ROUNDS ? ONE_OF(rounds) : c->rounds;
    c->key_len = chosen & LONG_KEY ? ONE_OF(long_keys) : chosen & SHORT_KEY ? ONE_OF(short_keys) : c->key_len;
    c->block_len = chosen & BLOCK ? ONE_OF(lens) : c->block_len;
    do
        c->out_len = chosen & OUTPUT ? (below(3) == 0 ? b : ONE_OF(lens)) : c->block_len;
    while (chosen & OUTPUT && c->out_len == c->block_len);
}

/* A short key is a fault in sealing alone; opening without any other is served. */
static uint32_t first_of(uint32_t sealing, unsigned chosen)
{
    const unsigned faults = sealing != 0 ? chosen : chosen & ~(unsigned)SHORT_KEY;
    return faults == 0 ? FOX_SERVED : numbers[__builtin_ctz(faults)];
}

void refusals(void)
{
    enum { SETS = (1 << FAULTS) - 1, TIMES = 40 };
    group_begin("refusals, every set of faults at once: the first is answered, the output stays, the register is 0");
    for (unsigned i = 0; i < SETS * TIMES; i++) {
        const unsigned chosen = 1 + i % SETS;
        struct part_call c = some_call(i / SETS % 2, i / SETS % 4 < 2 ? FOX64 : FOX128);
        spoil(&c, chosen);
        hold_part(&c, first_of(c.sealing, chosen));
    }
    group_end();
}

/* What is just served, and just refused. */
static void at_limits(struct part_call c)
{
    const struct part_call served = c;
    const size_t b = c.block_len;
    for (uint32_t rounds = 0; rounds <= FOX_MOST_ROUNDS + 20; rounds++) {
        c.rounds = rounds;
        hold_part(&c, rounds < FOX_LEAST_ROUNDS || rounds > FOX_MOST_ROUNDS ? FOX_REFUSED_ROUNDS : FOX_SERVED);
    }
    c = served;
    for (c.key_len = 0; c.key_len <= SETTING_ROOM; c.key_len++) {
        const unsigned too_short = c.key_len < FOX_LEAST_SEAL_KEY ? SHORT_KEY : 0;
        hold_part(&c, first_of(c.sealing, c.key_len > FOX_MOST_KEY ? LONG_KEY : too_short));
    }
    c = served;
    for (c.block_len = 0; c.block_len <= SETTING_ROOM; c.block_len++) {
        c.out_len = c.block_len;
        hold_part(&c, c.block_len != b ? FOX_REFUSED_BLOCK : FOX_SERVED);
    }
    c = served;
    for (c.out_len = 0; c.out_len <= SETTING_ROOM; c.out_len++)
        hold_part(&c, c.out_len != b ? FOX_REFUSED_OUTPUT : FOX_SERVED);
    c = served;
    for (c.cipher = 0; c.cipher <= 2 * FOX128; c.cipher++)
        if (c.cipher != FOX64 && c.cipher != FOX128)
            hold_part(&c, FOX_REFUSED_CIPHER);
}

void limits(void)
{
    group_begin("limits of rounds, key, block, output and cipher, just served and just refused");
    for (uint32_t i = 0; i < 4; i++)
        at_limits(some_call(i % 2, i < 2 ? FOX64 : FOX128));
    group_end();
}

/* Lengths whose lower 32 bits would be right, of what has no memory behind it. */
static void large(const struct part_call *c, uint32_t refusal)
{
    uint8_t painted_out[SETTING_ROOM];
    memset(out, 0x5A, sizeof out);
    memcpy(painted_out, out, sizeof out);
    uint64_t found = caught_part(c);
    if (case_wrong(found == (uint64_t)refusal << 32 && memcmp(out, painted_out, sizeof out) == 0))
        printf("cipher %" PRIu32 ", key of %zu, block of %zu, output of %zu bytes: answers %" PRIX64 ", and not %" PRIX32
               " with the register 0, or changes the output\n", c->cipher, c->key_len, c->block_len, c->out_len, found,
               refusal);
}

static void large_of(uint32_t sealing, uint32_t cipher, const uint8_t *nowhere)
{
    const struct part_call served = some_call(sealing, cipher);
    struct part_call c = served;
    c.key = nowhere, c.key_len += FOUR_GIB;
    large(&c, FOX_REFUSED_KEY);
    c.key_len = FOUR_GIB + FOX_LEAST_SEAL_KEY - 1;
    large(&c, FOX_REFUSED_KEY);
    c = served, c.key_len = FOX_LEAST_SEAL_KEY - 1, c.block = nowhere, c.block_len += FOUR_GIB;
    large(&c, first_of(sealing, SHORT_KEY | BLOCK));
    c = served, c.block = nowhere, c.block_len += FOUR_GIB;
    large(&c, FOX_REFUSED_BLOCK);
    c.out = (uint8_t *)nowhere, c.out_len += FOUR_GIB;
    large(&c, FOX_REFUSED_BLOCK);
    c = served, c.out = (uint8_t *)nowhere, c.out_len += FOUR_GIB;
    large(&c, FOX_REFUSED_OUTPUT);
}

void large_lengths(void)
{
    const uint8_t *all = no_room(FOUR_GIB + 2 * MARGIN);
    group_begin("lengths of 4 GiB and more, with no memory there");
    if (all == NULL && case_wrong(0))
        printf("this machine gives no addresses for 4 GiB\n");
    for (uint32_t i = 0; all != NULL && i < 4; i++)
        large_of(i % 2, i < 2 ? FOX64 : FOX128, all + MARGIN);
    group_end();
}
