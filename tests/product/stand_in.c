/* Stands in for the library's runs below examples/stretch.c: each prints its engine's name and ends the program, which
 * shows the engine that was called, since by the bytes they cannot be told apart. */
#include "fox.h"

#include <stdio.h>
#include <stdlib.h>

#define RUN_CALL(name, verb)                                                                           \
    uint32_t fox_##name##_##verb(uint32_t cipher, uint32_t rounds, const uint8_t *key, size_t key_len, \
                                 const uint8_t *counter, size_t counter_len, uint64_t offset,          \
                                 const uint8_t *data, size_t data_len, uint8_t *out, size_t out_len)   \
    {                                                                                                  \
        (void)cipher, (void)rounds, (void)key, (void)key_len, (void)counter, (void)counter_len;        \
        (void)offset, (void)data, (void)data_len, (void)out, (void)out_len;                            \
        puts(#name);                                                                                   \
        exit(0);                                                                                       \
    }
#define ENGINE(name, stack, work) RUN_CALL(name, seal_run) RUN_CALL(name, open_run)
#include "engines.def"
