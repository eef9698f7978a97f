/* The library's engines as a table, so that a test goes over all of them, or over all pairs of two. */
#ifndef COMMON_ENGINES_H
#define COMMON_ENGINES_H

#include <stddef.h>
#include <stdint.h>

typedef uint32_t block_call(uint32_t cipher, uint32_t rounds, const uint8_t *key, size_t key_len, const uint8_t *block,
                            size_t block_len, uint8_t *out, size_t out_len);
typedef uint32_t run_call(uint32_t cipher, uint32_t rounds, const uint8_t *key, size_t key_len, const uint8_t *counter,
                          size_t counter_len, uint64_t offset, const uint8_t *data, size_t data_len,
                          uint8_t *out, size_t out_len);
typedef uint32_t make_tag_call(uint32_t cipher, uint32_t rounds, const uint8_t *key, size_t key_len,
                               const uint8_t *message, size_t message_len, uint8_t *tag, size_t tag_len);
typedef uint32_t test_tag_call(uint32_t cipher, uint32_t rounds, const uint8_t *key, size_t key_len,
                               const uint8_t *message, size_t message_len, const uint8_t *tag, size_t tag_len);

/* `stack` and `work` are what engines.def says of them. */
struct engine {
    const char *name;
    block_call *seal, *open;
    run_call *seal_run, *open_run;
    make_tag_call *make_tag;
    test_tag_call *test_tag;
    size_t stack, work;
};

#define ENGINE(name, stack, work) ENGINE_##name,
enum {
#include "engines.def"
    ENGINES
};
#undef ENGINE

extern const struct engine engines[ENGINES];

#endif
