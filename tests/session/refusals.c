/* Spoilt calls: of all that is wrong with one, what is looked for first is answered, and nothing is changed. */
#include "chance.h"
#include "faults.h"
#include "groups.h"
#include "pair.h"
#include "rooms.h"
#include "tally.h"

#include <inttypes.h>
#include <stdio.h>
#include <string.h>

#define FOUR_GIB (1ull << 32)

enum { MARGIN = 1 << 20 };

static struct pair pair;

/* By the bits of a number: cipher, rounds, a long key, a short one, and counter. A key that is to be both is long, and
 * one that is to be neither is served in both directions. */
static struct setting spoilt_setting(unsigned chosen)
{
    static const uint32_t ciphers[] = {0, 1, FOX64 - 1, FOX64 + 1, FOX128 - 1, FOX128 + 1, 256 + FOX64, UINT32_MAX};
    static const uint32_t rounds[] = {0, FOX_LEAST_ROUNDS - 1, FOX_MOST_ROUNDS + 1, 256 + 16, UINT32_MAX};
    static const size_t long_keys[] = {FOX_MOST_KEY + 1, FOX_MOST_KEY + 2, SETTING_ROOM};
    static const size_t short_keys[] = {0, 1, 4, 8, FOX_LEAST_SEAL_KEY - 2, FOX_LEAST_SEAL_KEY - 1};
    struct setting s = some_setting(below(KINDS / 2));
    const size_t b = s.counter_len, counter_lens[] = {0, 1, b - 1, b + 1, FOX64_BLOCK + FOX128_BLOCK - b, 2 * b};
    s.cipher = chosen & 1 ? ONE_OF(ciphers) : s.cipher;
    s.rounds = chosen & 2 ? ONE_OF(rounds) : s.rounds;
    s.key_len = chosen & 4 ? ONE_OF(long_keys) : chosen & SHORT ? ONE_OF(short_keys) : s.key_len;
    s.counter_len = chosen & 16 ? ONE_OF(counter_lens) : s.counter_len;
    return s;
}

/* Whatever is asked of what was not started. */
static void calls_on_none(void)
{
    static const size_t lengths[] = {0, 1, 8, 40, FOX_MOST_DATA, FOX_MOST_DATA + 1};
    static const uint64_t positions[] = {0, 1, 8, FOX_RUN_END, FOX_RUN_END + 1ull, UINT64_MAX};
    for (int i = 0; i < 3; i++) {
        hold_advance(&pair, ONE_OF(lengths), ONE_OF(lengths), FOX_REFUSED_CIPHER);
        hold_move(&pair, ONE_OF(positions), FOX_REFUSED_CIPHER);
    }
}

/* What the words are before a start: those of a session that stands somewhere, by chance, or as they were. */
static void used_before(size_t which)
{
    struct setting s = some_setting(below(KINDS));
    if (which == 0) {
        hold_start(&pair, &s, FOX_SERVED);
        hold_move(&pair, below(FOX_RUN_END), FOX_SERVED);
    } else if (which == 1) {
        fill((uint8_t *)pair.words, sizeof pair.words);
    }
}

static void goes_on(size_t b)
{
    hold_advance(&pair, 2 * b + 1, 2 * b + 1, FOX_SERVED);
    hold_move(&pair, below(FOX_RUN_END), FOX_SERVED);
    hold_move(&pair, below(100), FOX_SERVED);
    hold_advance(&pair, 3, 3, FOX_SERVED);
}

/* The same setting in both directions: with a short key alone it is served for opening, and the session goes on. */
static void both_directions(struct setting s, unsigned chosen, size_t before)
{
    static const uint32_t numbers[] = {FOX_REFUSED_CIPHER, FOX_REFUSED_ROUNDS, FOX_REFUSED_KEY, FOX_REFUSED_SHORT_KEY,
                                       FOX_REFUSED_BLOCK};
    for (s.opening = 0; s.opening < 2; s.opening++) {
        const uint32_t answer = first_fault(numbers, chosen, s.opening);
        used_before(before);
        hold_start(&pair, &s, answer);
        if (answer == FOX_SERVED)
            goes_on(s.counter_len);
        else
            calls_on_none();
    }
}

void refused_starts(void)
{
    enum { SETS = 1 << 5, TIMES = 15 };
    group_begin("refused starts, every set of faults at once, in both directions: all words zero, and no session");
    for (unsigned chosen = 0; chosen < SETS; chosen++)
        for (size_t i = 0; i < TIMES; i++)
            both_directions(spoilt_setting(chosen), chosen, i % 3);
    group_end();
}

/* By the bits of a number: too much data, an output of another length, more bytes than are left of the run. Without the
 * last the position is far from the end. */
static void spoilt_advance(unsigned chosen)
{
    static const uint32_t numbers[] = {FOX_REFUSED_DATA, FOX_REFUSED_OUTPUT, FOX_REFUSED_END};
    const size_t left = below(40), len = chosen & 1 ? FOX_MOST_DATA + 1 + below(3) : left + 1 + below(40);
    const size_t others[] = {0, len - 1, len + 1, len / 2, INPUT_ROOM};
    hold_move(&pair, chosen & 4 ? FOX_RUN_END - left : below(FOX_RUN_END / 2), FOX_SERVED);
    hold_advance(&pair, len, chosen & 2 ? ONE_OF(others) : len, numbers[__builtin_ctz(chosen)]);
}

void refused_calls(void)
{
    static const uint64_t above[] = {FOX_RUN_END + 1ull, FOX_RUN_END + 8ull, 2ull * FOX_RUN_END, FOUR_GIB, FOUR_GIB + 5,
                                     FOUR_GIB + FOX_RUN_END, 1ull << 63, UINT64_MAX - 7, UINT64_MAX};
    group_begin("refused advances and moves, every set of faults at once: words and output as they were");
    for (unsigned i = 0; i < 7 * 60; i++) {
        if (i % 14 == 0) {
            struct setting s = some_setting(i / 14);
            hold_start(&pair, &s, FOX_SERVED);
        }
        spoilt_advance(1 + i % 7);
        hold_move(&pair, ONE_OF(above), FOX_REFUSED_END);
    }
    group_end();
}

/* Lengths whose lower 32 bits would be right, of what has no memory behind it. */
static const uint8_t *nowhere;

static void large(enum session_verb verb, const struct session_call *c, uint32_t right)
{
    uint64_t before[FOX_SESSION_WORDS];
    const uint64_t none[FOX_SESSION_WORDS] = {0};
    memcpy(before, pair.words, sizeof before);
    uint32_t answer = caught_call(verb, c);
    if (case_wrong(answer == right && memcmp(pair.words, is_start(verb) ? none : before, sizeof before) == 0))
        printf("fox_%s, key of %zu, counter of %zu, input of %zu, output of %zu bytes: answers %" PRIu32
               " and not %" PRIu32 ", or leaves other words\n", session_verbs[verb], c->key_len, c->counter_len,
               c->input_len, c->out_len, answer, right);
}

static void large_of(size_t kind)
{
    struct setting s = some_setting(kind);
    const size_t b = s.counter_len, g = (size_t)FOUR_GIB;
    const enum session_verb started = start_verb(s.opening);
    const struct session_call start = {.cipher = s.cipher, .rounds = s.rounds, .key = s.key, .key_len = 16,
                                       .counter = s.counter, .counter_len = b, .session = pair.words};
    struct session_call c = {.session = pair.words, .input = nowhere, .input_len = g + b,
                             .out = (uint8_t *)nowhere, .out_len = g + b};
    hold_start(&pair, &s, FOX_SERVED);
    large(SESSION_ADVANCE, &c, FOX_REFUSED_DATA);
    c.out_len = b;
    large(SESSION_ADVANCE, &c, FOX_REFUSED_DATA);
    c.input_len = b, c.out_len = g + b;
    large(SESSION_ADVANCE, &c, FOX_REFUSED_OUTPUT);
    c.input_len = 0, c.out_len = g;
    large(SESSION_ADVANCE, &c, FOX_REFUSED_OUTPUT);
    c = start, c.key = nowhere, c.key_len = g + 16;
    large(started, &c, FOX_REFUSED_KEY);
    c.key_len = g + 4;
    large(started, &c, FOX_REFUSED_KEY);
    c = start, c.counter = nowhere, c.counter_len = g + b;
    large(started, &c, FOX_REFUSED_BLOCK);
    c.key_len = 4;
    large(started, &c, s.opening ? FOX_REFUSED_BLOCK : FOX_REFUSED_SHORT_KEY);
}

void large_lengths(void)
{
    const uint8_t *all = no_room((size_t)FOUR_GIB + 2 * MARGIN);
    group_begin("lengths of 4 GiB and more, with no memory there");
    if (all == NULL && case_wrong(0))
        printf("this machine gives no addresses for 4 GiB\n");
    nowhere = all != NULL ? all + MARGIN : NULL;
    for (size_t kind = 0; all != NULL && kind < KINDS; kind++)
        large_of(kind);
    group_end();
}
