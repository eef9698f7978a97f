/* Numbers by chance, the same ones again from the same seed. */
#ifndef COMMON_CHANCE_H
#define COMMON_CHANCE_H

#include "count.h"

#include <stddef.h>
#include <stdint.h>

/* The seed that `word` gives in decimal, or one from the clock where `word` is NULL. */
uint64_t chance_begin(const char *word);
void chance_from(uint64_t seed);

uint64_t any_number(void);
uint64_t below(uint64_t limit);
void fill(uint8_t *bytes, size_t len);

/* One of the elements of an array. */
#define ONE_OF(a) ((a)[below(COUNT(a))])

#endif
