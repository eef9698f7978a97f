/* Cipher, rounds, key and counter of a run, by chance. */
#include "setting.h"
#include "chance.h"

#include <string.h>

size_t some_key_len(enum verb verb)
{
    static const size_t lengths[] = {0, 1, 8, 15, FOX_LEAST_SEAL_KEY, 17, 24, 31, FOX_MOST_KEY};
    size_t len;
    do
        len = ONE_OF(lengths);
    while (key_answer(verb, len) != FOX_SERVED);
    return len;
}

struct setting some_setting(uint32_t cipher)
{
    static const uint32_t rounds[] = {FOX_LEAST_ROUNDS, 13, 16, 16, 20, FOX_MOST_ROUNDS};
    struct setting s = {.cipher = cipher, .block = block_of(cipher)};
    s.rounds = ONE_OF(rounds);
    s.key_len = some_key_len(OPEN_RUN);
    s.sealing = key_answer(SEAL_RUN, s.key_len) == FOX_SERVED ? SEAL_RUN : OPEN_RUN;
    fill(s.key, sizeof s.key);
    fill(s.counter, sizeof s.counter);
    if (below(2) == 0) {
        memset(s.counter + s.block - 4, 0xFF, 3);
        if (below(4) == 0)
            memset(s.counter, 0xFF, s.block);
    }
    return s;
}

struct call call_of(const struct setting *s, uint64_t offset, const uint8_t *data, size_t len, uint8_t *out)
{
    return (struct call){s->cipher, s->rounds, s->key, s->key_len, s->counter, s->block, offset, data, len, out, len};
}
