/* Calls by chance, right ones and damaged ones. */
#include "calls.h"
#include "beside.h"
#include "chance.h"
#include "fox.h"

struct given given;

uint32_t cipher_by(size_t number)
{
    return number % 2 == 0 ? FOX64 : FOX128;
}

uint32_t some_cipher(void)
{
    return cipher_by(below(2));
}

const uint32_t wrong_ciphers[WRONG_CIPHERS] = {
    0,           1,           8,
    16,          32,          FOX64 - 1,
    FOX64 + 1,   96,          FOX128 - 1,
    FOX128 + 1,  192,         255,
    256,         FOX64 + 256, FOX128 + 256,
    64 + 65536,  128 + 65536, 64u << 8,
    128u << 8,   64u << 24,   128u << 24,
    0x80000040u, 0x80000080u, 0xFFFFFFC0u,
    0xFFFFFF80u, 0xFFFFFFFFu,
};

static uint32_t wrong_cipher(void)
{
    return below(4) == 0 ? (uint32_t)any_number() : ONE_OF(wrong_ciphers);
}

uint32_t odd_rounds(void)
{
    static const uint32_t numbers[] = {
        0,  1,   10,  11,  11,       12,       12,         13,         14,          16,          20,
        33, 256, 257, 300, 12 + 256, 16 + 512, 12 + 65536, 16 + 65536, 0x8000000Cu, 0xFFFFFFF0u, 0xFFFFFFFFu,
    };
    return ONE_OF(numbers);
}

/* The edges are a block's, the run's, and those of 32 and 64 bits, from where a sum with `n` would wrap. */
uint64_t odd_offset(size_t data_len)
{
    const uint64_t end = FOX_RUN_END, four_gib = 1ull << 32, n = data_len;
    const uint64_t numbers[] = {
        0, 1, 7, 8, 15, 16, 31, 32, 33, 64,
        end - n, end - n - 1, end - n + 1, end - 1, end, end + 1,
        four_gib / 2, four_gib - 1, four_gib, four_gib + 8,
        1ull << 63, 0 - n, 0 - n - 1, 0 - n + 1, 0 - end, UINT64_MAX - 1, UINT64_MAX,
    };
    return ONE_OF(numbers);
}

static size_t some_key_len(void)
{
    return below(4) == 0 ? below(FOX_LEAST_SEAL_KEY)
                         : FOX_LEAST_SEAL_KEY + below(FOX_MOST_KEY + 1 - FOX_LEAST_SEAL_KEY);
}

struct call right_block(uint32_t cipher)
{
    struct call c = {.cipher = cipher, .rounds = FOX_LEAST_ROUNDS + (uint32_t)below(6), .key = given.key,
                     .key_len = some_key_len(), .first = given.first, .data = given.data};
    c.first_len = c.out_len = block_of(cipher);
    fill(given.key, sizeof given.key);
    fill(given.first, sizeof given.first);
    return c;
}

struct call right_run(uint32_t cipher, size_t data_len, uint64_t offset)
{
    struct call c = right_block(cipher);
    fill(given.data, data_len <= FOX_MOST_DATA ? data_len : SHORT_ROOM);
    c.offset = offset;
    c.data_len = c.out_len = data_len;
    return c;
}

void store_tag(const struct call *c)
{
    struct call make = *c;
    make.out = given.first;
    second_answer(MAKE_TAG, &make);
}

struct call right_tag(uint32_t cipher, size_t message_len)
{
    struct call c = right_block(cipher);
    fill(given.data, message_len);
    c.data_len = message_len;
    store_tag(&c);
    return c;
}

static void exchange(size_t *a, size_t *b)
{
    size_t kept = *a;
    if (*a <= SHORT_ROOM && *b <= SHORT_ROOM) {
        *a = *b;
        *b = kept;
    }
}

static size_t one_off(size_t len)
{
    return len == 0 || below(2) == 0 ? len + 1 : len - 1;
}

void damage_block(struct call *c)
{
    static const size_t key_lens[] = {0, 1, 8, 14, 15, 15, 33, 33, 34, 40, 48, 64, 65, SHORT_ROOM};
    static const size_t first_lens[] = {0, 1, 4, 7, 8, 9, 12, 15, 16, 17, 24, 32, 64};
    uint32_t kept = c->cipher;
    switch (below(10)) {
    case 0:
        c->cipher = wrong_cipher();
        break;
    case 1:
        c->cipher = c->cipher == FOX64 ? FOX128 : FOX64;
        break;
    case 2:
        c->rounds = odd_rounds();
        break;
    case 3:
        c->key_len = ONE_OF(key_lens);
        break;
    case 4:
        c->first_len = one_off(c->first_len);
        break;
    case 5:
        c->first_len = ONE_OF(first_lens);
        break;
    case 6:
        c->out_len = one_off(c->out_len);
        break;
    case 7:
        c->out_len = ONE_OF(first_lens);
        break;
    case 8:
        exchange(&c->key_len, below(2) == 0 ? &c->first_len : &c->out_len);
        break;
    default:
        c->cipher = c->rounds;
        c->rounds = kept;
    }
}

void damage_run(struct call *c)
{
    switch (below(8)) {
    case 0:
        c->offset = odd_offset(c->data_len);
        break;
    case 1:
        c->data_len = one_off(c->data_len);
        break;
    case 2:
        c->data_len = FOX_MOST_DATA + 1 + below(3);
        c->out_len = below(2) == 0 ? c->data_len : c->out_len;
        break;
    case 3:
        exchange(&c->data_len, below(2) == 0 ? &c->first_len : &c->key_len);
        break;
    default:
        damage_block(c);
    }
}

void damage_tag(struct call *c)
{
    switch (below(8)) {
    case 0:
        c->data_len = one_off(c->data_len);
        break;
    case 1:
        exchange(&c->data_len, below(2) == 0 ? &c->first_len : &c->key_len);
        break;
    case 2:
        given.first[below(block_of(c->cipher))] ^= (uint8_t)(1 << below(8));
        break;
    default:
        damage_block(c);
    }
}
