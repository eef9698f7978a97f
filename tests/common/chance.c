/* Numbers by chance: a 64-bit number is multiplied and moved down in turn. */
#define _GNU_SOURCE
#include "chance.h"

#include <stdlib.h>
#include <time.h>

static uint64_t state;

void chance_from(uint64_t seed)
{
    state = seed;
}

uint64_t chance_begin(const char *word)
{
    struct timespec now = {0, 0};
    clock_gettime(CLOCK_REALTIME, &now);
    uint64_t milliseconds = (uint64_t)now.tv_sec * 1000 + (uint64_t)now.tv_nsec / 1000000;
    chance_from(word != NULL ? strtoull(word, NULL, 10) : milliseconds);
    return state;
}

uint64_t any_number(void)
{
    state += 0x9E3779B97F4A7C15u;
    uint64_t x = state;
    for (int i = 0; i < 3; i++)
        x = (x ^ x >> 29) * 0xBF58476D1CE4E5B9u;
    return x ^ x >> 32;
}

uint64_t below(uint64_t limit)
{
    return any_number() % limit;
}

void fill(uint8_t *bytes, size_t len)
{
    for (size_t i = 0; i < len; i++)
        bytes[i] = (uint8_t)any_number();
}
