/* Starts: keys of every length, every number of rounds, and words that were used before. */
#include "chance.h"
#include "fox.h"
#include "groups.h"
#include "pair.h"
#include "tally.h"

static struct pair pair;

/* The first block and what follows it, from a session with these; or no session, where the key is too short to seal
 * with. */
static void one_start(struct setting s)
{
    const size_t b = s.counter_len;
    if (!s.opening && s.key_len < FOX_LEAST_SEAL_KEY) {
        hold_start(&pair, &s, FOX_REFUSED_SHORT_KEY);
        hold_advance(&pair, b - 3, b - 3, FOX_REFUSED_CIPHER);
        return;
    }
    hold_start(&pair, &s, FOX_SERVED);
    hold_advance(&pair, b - 3, b - 3, FOX_SERVED);
    hold_advance(&pair, 3, 3, FOX_SERVED);
}

static void keys_and_rounds(void)
{
    group_begin("starts: keys of 0 to 32 bytes, of which those from 16 on seal, 12 to 255 rounds");
    for (size_t i = 0; i < KINDS * (FOX_MOST_KEY + 1); i++) {
        struct setting s = some_setting(i % KINDS);
        s.key_len = i / KINDS;
        one_start(s);
    }
    for (uint32_t rounds = FOX_LEAST_ROUNDS; rounds <= FOX_MOST_ROUNDS; rounds++) {
        struct setting s = some_setting(rounds % KINDS);
        s.rounds = rounds;
        one_start(s);
    }
    for (size_t kind = 0; kind < KINDS; kind++) {
        struct setting s = some_setting(kind);
        s.rounds = FOX_MOST_ROUNDS, s.key_len = FOX_MOST_KEY;
        one_start(s);
        hold_move(&pair, 1000, FOX_SERVED);
        hold_advance(&pair, 100, 100, FOX_SERVED);
        hold_move(&pair, 5, FOX_SERVED);
        hold_advance(&pair, 100, 100, FOX_SERVED);
    }
    group_end();
}

/* Over a session of any kind that stands somewhere, with a longer list of round keys, and over words by chance. What a
 * start has filled does not depend on them. */
static void used_words(void)
{
    static struct pair other;
    group_begin("starts over words that were used before: position 0, and nothing of them is left");
    for (size_t i = 0; i < KINDS * KINDS * 8; i++) {
        struct setting s = some_setting(i / KINDS);
        fill((uint8_t *)pair.words, sizeof pair.words);
        try_start(&pair, &s);
        try_move(&pair, below(FOX_RUN_END));
        s = some_setting(i);
        try_start(&other, &s);
        try_move(&other, below(FOX_RUN_END));
        try_advance(&other, below(40), below(40));
        hold_start(&pair, &s, FOX_SERVED);
        hold_start(&other, &s, FOX_SERVED);
        same_words(&pair, &other, "two starts with the same setting fill the words otherwise");
        hold_advance(&pair, 5, 5, FOX_SERVED);
    }
    group_end();
}

void starts(void)
{
    keys_and_rounds();
    used_words();
}
