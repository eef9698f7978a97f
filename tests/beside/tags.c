/* Tags, made and tested: what is stored for the test is the message's tag, or that tag with something changed. */
#include "beside.h"
#include "calls.h"
#include "chance.h"
#include "count.h"
#include "fox.h"
#include "groups.h"
#include "tally.h"

/* With the stored tag as it is, and with one bit of it changed. */
static void try_both(const struct call *c)
{
    try_tag(c);
    given.first[below(block_of(c->cipher))] ^= (uint8_t)(1 << below(8));
    try_tag(c);
}

static void short_messages(void)
{
    group_begin("tags: messages at and around 0, B, 2B and 3B, and by chance");
    for (size_t i = 0; i < 20; i++)
        for (size_t around = 0; around <= 3; around++) {
            const size_t edge = around * block_of(cipher_by(i));
            for (size_t length = edge == 0 ? 0 : edge - 1; length <= edge + 1; length++) {
                struct call c = right_tag(cipher_by(i), length);
                try_both(&c);
            }
        }
    for (size_t i = 0; i < 400; i++) {
        struct call c = right_tag(cipher_by(i), below(i % 10 == 0 ? 1500 : 150));
        try_both(&c);
    }
    group_end();
}

/* Few rounds, since the slowest engine takes its time. */
static void long_messages(void)
{
    enum { EDGE = 65536 };
    group_begin("tags: messages at and around 65,536 bytes");
    for (size_t i = 0; i < 3 * 2; i++) {
        struct call c = right_tag(cipher_by(i), EDGE - 1 + i / 2);
        c.rounds = FOX_LEAST_ROUNDS;
        store_tag(&c);
        try_tag(&c);
    }
    group_end();
}

static void keys(void)
{
    group_begin("tags: keys of 0 to 33 bytes");
    for (size_t i = 0; i < (FOX_MOST_KEY + 2) * 2 * 5; i++) {
        struct call c = right_tag(cipher_by(i), below(50));
        c.key_len = i / 2 % (FOX_MOST_KEY + 2);
        store_tag(&c);
        try_tag(&c);
    }
    group_end();
}

static void rounds(void)
{
    group_begin("tags: round counts");
    for (uint32_t i = 0; i < 300 * 2; i++) {
        struct call c = right_tag(cipher_by(i), below(40));
        c.rounds = i / 2 < 250 ? FOX_LEAST_ROUNDS - 3 + i / 2 : odd_rounds();
        store_tag(&c);
        try_tag(&c);
    }
    group_end();
}

/* The stored tag stays that of the message before the change. */
static void changed_bits(void)
{
    group_begin("tags: one bit of the message, the key or the stored tag changed");
    for (size_t i = 0; i < 600; i++) {
        struct call c = right_tag(some_cipher(), 1 + below(60));
        c.key_len = 1 + below(FOX_MOST_KEY);
        store_tag(&c);
        uint8_t *where[] = {&given.data[below(c.data_len)], &given.key[below(c.key_len)],
                            &given.first[below(c.first_len)]};
        *where[i % 3] ^= (uint8_t)(1 << below(8));
        try_tag(&c);
    }
    group_end();
}

/* Of a stored tag that is too long the first bytes are right, and all bytes of one that is too short. */
static void tag_lengths(void)
{
    static const size_t lengths[] = {0, 1, 7, 8, 9, 12, 15, 16, 17, 24, 31, 32, 33};
    group_begin("tags: stored tags and room for tags at and around 0, B and 2B");
    for (size_t i = 0; i < COUNT(lengths) * COUNT(lengths) * 2 * 2; i++) {
        struct call c = right_tag(cipher_by(i), below(40));
        c.first_len = lengths[i / 2 % COUNT(lengths)];
        c.out_len = lengths[i / 2 / COUNT(lengths) % COUNT(lengths)];
        try_tag(&c);
    }
    group_end();
}

static void damaged(void)
{
    group_begin("damaged calls: tags");
    for (int i = 0; i < 3000; i++) {
        struct call c = right_tag(some_cipher(), below(40));
        damage_tag(&c);
        if (i % 2 == 0)
            damage_tag(&c);
        try_tag(&c);
    }
    group_end();
}

void tags(void)
{
    short_messages();
    long_messages();
    keys();
    rounds();
    changed_bits();
    tag_lengths();
    damaged();
}
