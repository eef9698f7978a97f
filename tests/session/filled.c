/* Words that no start has filled, or that were changed after it. What is promised of them is that calls end and keep
 * within what they were lent. What they answer, where the session then stands, and that a refused call changes nothing
 * is in the definitions, though no caller can rely on it. */
#include "answers.h"
#include "chance.h"
#include "faults.h"
#include "groups.h"
#include "pair.h"
#include "second.h"
#include "tally.h"

#include <inttypes.h>
#include <stdio.h>
#include <string.h>

/* Which word is what. A session is for opening where the last word is 0, and for sealing where it is any other number;
 * a start has put 1 there. */
enum { CIPHER = 510, ROUNDS = 511, KEY_LEN = 512, POSITION = 515, SEALING = 518 };

static uint64_t words[FOX_SESSION_WORDS];

static uint64_t some_direction(int sealing)
{
    const uint64_t others[] = {1, 2, 1ull << 32, 1ull << 63, UINT64_MAX, any_number() | 1};
    return sealing ? ONE_OF(others) : 0;
}

/* Most often one that is served; of cipher and rounds the lower 32 bits alone are looked at. */
static uint64_t odd_number(uint64_t right, uint64_t least, uint64_t most)
{
    const uint64_t odd[] = {0, least - 1, most + 1, right + (1ull << 31), right + (1ull << 32), right + (1ull << 63),
                            UINT32_MAX, UINT64_MAX, any_number()};
    return below(4) != 0 ? right : ONE_OF(odd);
}

static void fill_words(void)
{
    fill((uint8_t *)words, sizeof words);
    if (below(4) == 0)
        memset(words, below(2) == 0 ? 0 : 0xFF, sizeof words);
    words[CIPHER] = odd_number(below(2) == 0 ? FOX64 : FOX128, FOX64, FOX128);
    words[ROUNDS] = odd_number(below(8) == 0 ? FOX_MOST_ROUNDS : FOX_LEAST_ROUNDS + below(4), FOX_LEAST_ROUNDS,
                               FOX_MOST_ROUNDS);
    words[KEY_LEN] = odd_number(below(FOX_MOST_KEY + 1), 0, FOX_MOST_KEY);
    words[SEALING] = some_direction((int)below(2));
    words[POSITION] = below(2) == 0 ? FOX_RUN_END - below(80) : odd_number(below(FOX_RUN_END), 0, FOX_RUN_END);
}

/* The refusal of a stretch with these numbers; the bytes that it would give are not those of the words. */
static uint32_t right_refusal(uint64_t offset, size_t input_len, size_t out_len)
{
    static uint8_t key[FOX_MOST_KEY], counter[FOX128_BLOCK], out[INPUT_ROOM];
    uint32_t cipher = (uint32_t)words[CIPHER];
    return second_run(words[SEALING] == 0, cipher, (uint32_t)words[ROUNDS], key, (size_t)words[KEY_LEN], counter,
                      cipher / 8, offset, some_input(input_len), input_len, out, out_len);
}

/* The library's own output is not looked at where the call is served. */
static void held(enum session_verb verb, struct session_call c, uint32_t right, uint64_t position)
{
    static uint8_t lent[INPUT_ROOM];
    uint64_t before[FOX_SESSION_WORDS];
    const char *kept = NULL;
    for (size_t i = 0; i < c.out_len; i++)
        lent[i] = (uint8_t)(i * 29 + 5);
    memcpy(before, words, sizeof before);
    c.session = words, c.out = lent;
    uint32_t found = laid_call(verb, &c, right == FOX_SERVED ? NULL : lent, &kept);
    int same = memcmp(before, words, sizeof words) == 0, turned = (words[SEALING] == 0) != (before[SEALING] == 0);
    int moved = words[POSITION] == position && !turned;
    count_answer(right);
    if (case_wrong(found == right && kept == NULL && (right == FOX_SERVED ? moved : same))) {
        printf("cipher %" PRIu64 ", rounds %" PRIu64 ", key of %" PRIu64 " bytes, at %" PRIu64 ", direction %" PRIu64
               ": ", before[CIPHER], before[ROUNDS], before[KEY_LEN], before[POSITION], before[SEALING]);
        show_session_call(verb, &c);
        printf(": answers %" PRIu32 ", right is %" PRIu32 ", then at %" PRIu64 "; %s\n", found, right, words[POSITION],
               kept != NULL ? kept : same ? "the words stay" : turned ? "the direction changes" : "the words change");
    }
}

static void held_advance(size_t input_len, size_t out_len, uint32_t right)
{
    const struct session_call c = {.input = some_input(input_len), .input_len = input_len, .out_len = out_len};
    held(SESSION_ADVANCE, c, right, words[POSITION] + input_len);
}

static void held_move(uint64_t position, uint32_t right)
{
    held(SESSION_MOVE, (struct session_call){.position = position}, right, position);
}

static void one_call(void)
{
    static const size_t lengths[] = {0, 1, 7, 8, 9, 15, 16, 17, 33, 64, 65, 130, FOX_MOST_DATA + 1};
    const size_t len = below(200) == 0 ? FOX_MOST_DATA - below(10) : ONE_OF(lengths);
    const size_t out_len = below(8) != 0 ? len : len == 0 || below(2) == 0 ? len + 1 : len - 1;
    const uint64_t here = words[POSITION];
    const uint64_t to = below(2) == 0 ? here + below(40) - 20 : odd_number(below(FOX_RUN_END), 0, FOX_RUN_END);
    if (below(2) == 0)
        held_move(to, right_refusal(to, 0, 0));
    else
        held_advance(len, out_len, right_refusal(here, len, out_len));
}

void filled_words(void)
{
    enum { TIMES = 2500 };
    group_begin("words that a caller filled: calls end, and keep within what they were lent");
    for (int i = 0; i < TIMES; i++) {
        fill_words();
        for (size_t calls = 1 + below(3); calls > 0; calls--)
            one_call();
    }
    group_end();
}

/* By the first bits of a number: cipher, rounds, a long key and a short one. What is not chosen is served. */
static void spoil_words(unsigned chosen, int opening)
{
    static const uint64_t ciphers[] = {0, FOX64 + 1, FOX128 - 1, UINT32_MAX};
    static const uint64_t rounds[] = {0, FOX_LEAST_ROUNDS - 1, FOX_MOST_ROUNDS + 1, UINT64_MAX};
    static const uint64_t long_keys[] = {FOX_MOST_KEY + 1, (1ull << 32) + 4, (1ull << 32) + 16, UINT64_MAX};
    fill((uint8_t *)words, sizeof words);
    words[CIPHER] = chosen & 1 ? ONE_OF(ciphers) : below(2) == 0 ? FOX64 : FOX128;
    words[ROUNDS] = chosen & 2 ? ONE_OF(rounds) : FOX_LEAST_ROUNDS;
    words[KEY_LEN] = FOX_LEAST_SEAL_KEY + below(FOX_MOST_KEY - FOX_LEAST_SEAL_KEY + 1);
    if (chosen & SHORT)
        words[KEY_LEN] = below(3) == 0 ? FOX_LEAST_SEAL_KEY - 1 : below(FOX_LEAST_SEAL_KEY);
    if (chosen & 4)
        words[KEY_LEN] = ONE_OF(long_keys);
    words[SEALING] = some_direction(!opening);
}

/* By the bits after them: too much data, an output of another length, more bytes than are left of the run. */
static void spoilt_advance(unsigned chosen, int opening)
{
    static const uint32_t numbers[] = {FOX_REFUSED_CIPHER, FOX_REFUSED_ROUNDS, FOX_REFUSED_KEY, FOX_REFUSED_SHORT_KEY,
                                       FOX_REFUSED_DATA,   FOX_REFUSED_OUTPUT, FOX_REFUSED_END};
    const size_t left = below(40), len = chosen & 16 ? FOX_MOST_DATA + 1 : left + 1 + below(40);
    spoil_words(chosen, opening);
    words[POSITION] = chosen & 64 ? FOX_RUN_END - left : below(FOX_RUN_END / 2);
    held_advance(len, chosen & 32 ? len - 1 : len, first_fault(numbers, chosen, opening));
}

static void spoilt_move(unsigned chosen, int opening)
{
    static const uint32_t numbers[] = {FOX_REFUSED_CIPHER, FOX_REFUSED_ROUNDS, FOX_REFUSED_KEY, FOX_REFUSED_SHORT_KEY,
                                       FOX_REFUSED_END};
    const uint64_t to = chosen & 16 ? FOX_RUN_END + 1ull + below(100) : below(FOX_RUN_END);
    spoil_words(chosen, opening);
    words[POSITION] = below(FOX_RUN_END);
    held_move(to, first_fault(numbers, chosen, opening));
}

/* Of the bits of a number the lowest says the direction, and all others which faults there are. */
void filled_faults(void)
{
    enum { TIMES = 4, OF_ADVANCE = 1 << 8, OF_MOVE = 1 << 6 };
    group_begin("words that a caller filled, every set of faults at once, in both directions");
    for (unsigned i = 0; i < TIMES * OF_ADVANCE; i++)
        spoilt_advance(i % OF_ADVANCE >> 1, i % 2);
    for (unsigned i = 0; i < TIMES * OF_MOVE; i++)
        spoilt_move(i % OF_MOVE >> 1, i % 2);
    group_end();
}

/* The session's own words, but for this one. */
static void poked(const struct pair *p, size_t word, uint64_t number)
{
    memcpy(words, p->words, sizeof words);
    words[word] = number;
}

/* A key length that is too short to seal with, put into a copy of the words, shows which direction they have: one for
 * sealing is refused, and one for opening goes on. */
static void direction_is_kept(const struct pair *p)
{
    const uint32_t right = p->plain.sealing ? FOX_REFUSED_SHORT_KEY : FOX_SERVED;
    if (case_wrong(p->words[SEALING] == (uint64_t)p->plain.sealing))
        printf("a session for %s says %" PRIu64 " of its direction\n", p->plain.sealing ? "sealing" : "opening",
               p->words[SEALING]);
    poked(p, KEY_LEN, below(FOX_LEAST_SEAL_KEY));
    held_advance(5, 5, right);
    poked(p, KEY_LEN, FOX_LEAST_SEAL_KEY - 1);
    held_move(below(FOX_RUN_END), right);
    poked(p, KEY_LEN, FOX_LEAST_SEAL_KEY);
    held_advance(5, 5, FOX_SERVED);
    held_move(below(FOX_RUN_END), FOX_SERVED);
}

/* A session for opening, told to seal with its own key. */
static void told_to_seal(const struct pair *p)
{
    const uint32_t right = p->plain.key_len < FOX_LEAST_SEAL_KEY ? FOX_REFUSED_SHORT_KEY : FOX_SERVED;
    poked(p, SEALING, some_direction(1));
    held_advance(5, 5, right);
    held_move(below(FOX_RUN_END), right);
}

static void one_direction(size_t kind)
{
    static struct pair pair, copy;
    struct setting s = some_setting(kind);
    hold_start(&pair, &s, FOX_SERVED);
    direction_is_kept(&pair);
    for (int i = 0; i < 4; i++) {
        const size_t len = below(4 * s.counter_len);
        hold_advance(&pair, len, len, FOX_SERVED);
        direction_is_kept(&pair);
        copy = pair;
        hold_move(&copy, i == 0 ? 0 : below(FOX_RUN_END / 2), FOX_SERVED);
        direction_is_kept(&copy);
    }
    if (s.opening)
        told_to_seal(&copy);
}

void directions(void)
{
    enum { TIMES = 25 };
    group_begin("the direction of a session, from its start on, through advances and moves, and in copies");
    for (size_t i = 0; i < KINDS * TIMES; i++)
        one_direction(i);
    group_end();
}
