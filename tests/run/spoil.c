/* Wrong calls. */
#include "spoil.h"
#include "count.h"
#include "fox.h"
#include "lent.h"

#include <stdlib.h>

#define FOUR_GIB ((uint64_t)1 << 32)

static void set_cipher(struct call *c, uint64_t value) { c->cipher = (uint32_t)value; }
static void set_rounds(struct call *c, uint64_t value) { c->rounds = (uint32_t)value; }
static void set_key_len(struct call *c, uint64_t value) { c->key_len = value; }
/* A key that is too long stays so. */
static void shorten_key(struct call *c, uint64_t value) { c->key_len = c->key_len > FOX_MOST_KEY ? c->key_len : value; }
static void set_counter_len(struct call *c, uint64_t value) { c->first_len = value; }
static void other_counter_len(struct call *c, uint64_t value)
{
    (void)value;
    c->first_len = c->cipher == FOX64 ? FOX128_BLOCK : FOX64_BLOCK;
}
static void set_lengths(struct call *c, uint64_t value) { c->data_len = c->out_len = value; }
static void set_out_len(struct call *c, uint64_t value) { c->out_len = value; }
static void add_out_len(struct call *c, uint64_t value) { c->out_len += value; }
static void set_offset(struct call *c, uint64_t value) { c->offset = value; }
static void set_sum(struct call *c, uint64_t value) { c->offset = value - c->data_len; }
static void vast_key(struct call *c, uint64_t value) { c->key = vast_input, c->key_len = value; }
static void vast_counter(struct call *c, uint64_t value) { c->first = vast_input, c->first_len = value; }
static void vast_data(struct call *c, uint64_t value) { c->data = vast_input, c->data_len = value; }
static void vast_out(struct call *c, uint64_t value) { c->out = vast_output, c->out_len = value; }

const struct spoil spoils[] = {
    {FOX_REFUSED_CIPHER, set_cipher, 0, 0},
    {FOX_REFUSED_CIPHER, set_cipher, FOX64 - 1, 0},
    {FOX_REFUSED_CIPHER, set_cipher, FOX64 + 1, 0},
    {FOX_REFUSED_CIPHER, set_cipher, FOX128 - 1, 0},
    {FOX_REFUSED_CIPHER, set_cipher, FOX128 + 1, 0},
    {FOX_REFUSED_CIPHER, set_cipher, 256 + FOX64, 0},
    {FOX_REFUSED_CIPHER, set_cipher, UINT32_MAX, 0},
    {FOX_REFUSED_ROUNDS, set_rounds, 0, 0},
    {FOX_REFUSED_ROUNDS, set_rounds, FOX_LEAST_ROUNDS - 1, 0},
    {FOX_REFUSED_ROUNDS, set_rounds, FOX_MOST_ROUNDS + 1, 0},
    {FOX_REFUSED_ROUNDS, set_rounds, 256 + 16, 0},
    {FOX_REFUSED_ROUNDS, set_rounds, UINT32_MAX, 0},
    {FOX_REFUSED_KEY, set_key_len, FOX_MOST_KEY + 1, 0},
    {FOX_REFUSED_KEY, set_key_len, 64, 0},
    {FOX_REFUSED_KEY, vast_key, FOUR_GIB + 16, 1},
    {FOX_REFUSED_KEY, vast_key, FOUR_GIB + FOX_LEAST_SEAL_KEY - 1, 1},
    {FOX_REFUSED_SHORT_KEY, shorten_key, 0, 0},
    {FOX_REFUSED_SHORT_KEY, shorten_key, 1, 0},
    {FOX_REFUSED_SHORT_KEY, shorten_key, FOX_LEAST_SEAL_KEY - 1, 0},
    {FOX_REFUSED_BLOCK, set_counter_len, 0, 0},
    {FOX_REFUSED_BLOCK, set_counter_len, FOX64_BLOCK - 1, 0},
    {FOX_REFUSED_BLOCK, set_counter_len, FOX64_BLOCK + 1, 0},
    {FOX_REFUSED_BLOCK, set_counter_len, FOX128_BLOCK - 1, 0},
    {FOX_REFUSED_BLOCK, set_counter_len, FOX128_BLOCK + 1, 0},
    {FOX_REFUSED_BLOCK, other_counter_len, 0, 0},
    {FOX_REFUSED_BLOCK, vast_counter, FOUR_GIB + FOX64_BLOCK, 1},
    {FOX_REFUSED_BLOCK, vast_counter, FOUR_GIB + FOX128_BLOCK, 1},
    {FOX_REFUSED_DATA, set_lengths, FOX_MOST_DATA + 1, 0},
    {FOX_REFUSED_DATA, vast_data, FOUR_GIB + CASE_LEN, 1},
    {FOX_REFUSED_OUTPUT, add_out_len, 1, 0},
    {FOX_REFUSED_OUTPUT, add_out_len, UINT64_MAX, 0},
    {FOX_REFUSED_OUTPUT, set_out_len, 0, 0},
    {FOX_REFUSED_OUTPUT, vast_out, FOUR_GIB + CASE_LEN, 1},
    {FOX_REFUSED_END, set_sum, (uint64_t)FOX_RUN_END + 1, 0},
    {FOX_REFUSED_END, set_offset, FOX_RUN_END, 0},
    {FOX_REFUSED_END, set_offset, FOUR_GIB, 0},
    {FOX_REFUSED_END, set_offset, (uint64_t)1 << 63, 0},
    {FOX_REFUSED_END, set_sum, 0, 0},
    {FOX_REFUSED_END, set_offset, UINT64_MAX - 3, 0},
    {FOX_REFUSED_END, set_offset, UINT64_MAX, 0},
};
const size_t spoil_count = COUNT(spoils);

int spoil_call(struct call *c, const struct spoil *s)
{
    if (s->vast && (vast_input == NULL || vast_output == NULL))
        return 0;
    s->change(c, s->value);
    return 1;
}

size_t spoil_numbers(uint32_t numbers[MOST_NUMBERS])
{
    size_t count = 0;
    for (size_t i = 0; i < COUNT(spoils); i++)
        if (i == 0 || spoils[i].number != spoils[i - 1].number) {
            if (count == MOST_NUMBERS)
                abort();
            numbers[count++] = spoils[i].number;
        }
    return count;
}
