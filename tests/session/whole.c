/* Long stretches, and sessions that are copied. */
#include "chance.h"
#include "count.h"
#include "groups.h"
#include "pair.h"
#include "tally.h"

#include <stdio.h>
#include <string.h>

static struct pair pair;

void long_advances(void)
{
    group_begin("advances as long as one may be, from the edge of a block and from inside it");
    for (size_t kind = 0; kind < KINDS; kind++) {
        struct setting s = some_setting(kind);
        const size_t b = s.counter_len, lengths[] = {FOX_MOST_DATA - 1, FOX_MOST_DATA, FOX_MOST_DATA - b + 1};
        s.rounds = FOX_LEAST_ROUNDS;
        hold_start(&pair, &s, FOX_SERVED);
        for (size_t i = 0; i < COUNT(lengths); i++) {
            hold_advance(&pair, lengths[i], lengths[i], FOX_SERVED);
            hold_advance(&pair, FOX_MOST_DATA + 1, FOX_MOST_DATA + 1, FOX_REFUSED_DATA);
            hold_move(&pair, (1 + below(20)) * b + (i < 2 ? below(b) : b - 1), FOX_SERVED);
        }
    }
    group_end();
}

enum { LENGTH = 3 * FOX_MOST_DATA };

/* A run's first bytes by advances alone, of up to `most` bytes each. The answers of all calls are joined. */
static uint32_t by_session(int opening, const struct setting *s, const uint8_t *in, uint8_t *out, size_t most)
{
    uint64_t words[FOX_SESSION_WORDS];
    const struct session_call start = {.cipher = s->cipher, .rounds = s->rounds, .key = s->key, .key_len = s->key_len,
                                       .counter = s->counter, .counter_len = s->counter_len, .session = words};
    uint32_t refusals = caught_call(start_verb(opening), &start);
    for (size_t at = 0, len; at < LENGTH; at += len) {
        len = below(most + 1);
        len = len < LENGTH - at ? len : LENGTH - at;
        refusals |= fox_session_advance(words, in + at, len, out + at, len);
    }
    return refusals;
}

/* The same by the server, as much as it takes at once. */
static uint32_t by_server(const struct setting *s, const uint8_t *in, uint8_t *out)
{
    uint32_t refusals = FOX_SERVED;
    for (size_t at = 0; at < LENGTH; at += FOX_MOST_DATA)
        refusals |= fox_server_seal_run(s->cipher, s->rounds, s->key, s->key_len, s->counter, s->counter_len, at,
                                        in + at, FOX_MOST_DATA, out + at, FOX_MOST_DATA);
    return refusals;
}

/* What a session has sealed is what the server seals, and another session, in other pieces, opens it. */
static void sealed_and_opened(size_t kind, size_t most)
{
    static uint8_t data[LENGTH], sealed[LENGTH], right[LENGTH], opened[LENGTH];
    struct setting s = some_setting(kind);
    fill(data, sizeof data);
    uint32_t refusals = by_session(0, &s, data, sealed, most) | by_server(&s, data, right) |
                        by_session(1, &s, sealed, opened, most);
    if (case_wrong(refusals == FOX_SERVED && memcmp(sealed, right, LENGTH) == 0 && memcmp(opened, data, LENGTH) == 0))
        printf("FOX%u in pieces of up to %zu bytes comes out otherwise than at once\n", (unsigned)s.cipher, most);
}

void whole_run(void)
{
    static const size_t most[] = {1, 3, 20, 100, 3000, FOX_MOST_DATA};
    group_begin("a run's first 196,608 bytes sealed in pieces, beside the server's run, and opened in pieces");
    for (size_t i = 0; i < COUNT(most); i++) {
        sealed_and_opened(0, most[i]);
        sealed_and_opened(1, most[i]);
    }
    group_end();
}

/* Three sessions from one, each in words of its own, of which two are called in turn and one stays where it was. */
static void one_copy(size_t kind)
{
    static struct pair ways[3];
    struct setting s = some_setting(kind);
    const size_t b = s.counter_len;
    hold_start(&pair, &s, FOX_SERVED);
    hold_move(&pair, below(100 * b), FOX_SERVED);
    try_advance(&pair, below(3 * b), below(3 * b));
    for (size_t i = 0; i < COUNT(ways); i++)
        ways[i] = pair;
    for (int i = 0; i < 4; i++) {
        const size_t len = below(3 * b);
        hold_advance(&ways[0], len, len, FOX_SERVED);
        hold_move(&ways[1], below(100 * b), FOX_SERVED);
        hold_advance(&ways[1], len, len, FOX_SERVED);
    }
    same_words(&ways[2], &pair, "a copy that was not called has changed");
    hold_advance(&ways[2], b, b, FOX_SERVED);
    hold_advance(&pair, b, b, FOX_SERVED);
    same_words(&ways[2], &pair, "two copies after the same call have other words");
}

void copies(void)
{
    group_begin("copies of a session, each a session of its own");
    for (size_t i = 0; i < 60; i++)
        one_copy(i);
    group_end();
}
