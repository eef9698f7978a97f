/* Cipher, rounds, key and counter of a run, by chance. */
#ifndef RUN_SETTING_H
#define RUN_SETTING_H

#include "call.h"
#include "fox.h"

/* `sealing` is SEAL_RUN; but where the key is too short to seal with it is OPEN_RUN, which is the same XOR. */
struct setting {
    enum verb sealing;
    uint32_t cipher, rounds;
    size_t key_len, block;
    uint8_t key[FOX_MOST_KEY], counter[FOX128_BLOCK];
};

/* One of the lengths of a key, by chance, with which the verb is served. */
size_t some_key_len(enum verb verb);

/* The counter's counting bytes are often near their end. */
struct setting some_setting(uint32_t cipher);

struct call call_of(const struct setting *s, uint64_t offset, const uint8_t *data, size_t len, uint8_t *out);

#endif
