/* A fuzzer's input as a list of calls on a session: what the library does beside the plain machine of the second
 * implementation, the answer and every byte, and the words that a refused call leaves. Stops the program where anything
 * differs. */
#include "answers.h"
#include "exact.h"
#include "session.h"
#include "session_call.h"
#include "session_input.h"

#include <inttypes.h>
#include <stdio.h>
#include <stdlib.h>
#include <string.h>

enum { MOST_CALLS = 40, MOST_LONG = 2, ROOM = FOX_MOST_DATA + 64, WORDS_SIZE = FOX_SESSION_WORDS * sizeof(uint64_t) };

/* Which word is the key's length. */
enum { KEY_LEN = 512 };

int LLVMFuzzerTestOneInput(const uint8_t *bytes, size_t len);

/* The input that is left; after its end come zeros. */
static const uint8_t *at, *end;

static uint8_t take(void)
{
    return at < end ? *at++ : 0;
}

/* A session of the library, and the plain machine beside it, unless a word of the session was poked. Where the key
 * length in the words was shortened the machine's own was not, since its bytes come from the key. */
static struct pair {
    uint64_t words[FOX_SESSION_WORDS];
    struct second_session plain;
    int poked, shortened;
} now, kept;

static uint8_t data[ROOM], expected[ROOM];

/* What is lent to a call, each thing in a block of exactly its length. */
struct lent {
    struct exact key, counter, words, input, out;
};

static struct lent lend(const struct session_call *c)
{
    return (struct lent){exact_copy(c->key, c->key_len), exact_copy(c->counter, c->counter_len),
                         exact_copy((const uint8_t *)now.words, WORDS_SIZE), exact_copy(c->input, c->input_len),
                         exact_room(c->out_len)};
}

static void take_back(struct lent *l)
{
    exact_free(&l->key);
    exact_free(&l->counter);
    exact_free(&l->words);
    exact_free(&l->input);
    exact_free(&l->out);
}

static const char *difference(enum session_verb verb, const struct session_call *c, const struct lent *l,
                              uint32_t right, uint32_t found)
{
    static const uint64_t none[FOX_SESSION_WORDS];
    if (found != right)
        return "answers otherwise";
    if (!exact_holds(&l->out, expected, right == FOX_SERVED ? c->out_len : 0))
        return "has written another byte, or left one out";
    if (right != FOX_SERVED && memcmp(l->words.at, is_start(verb) ? none : now.words, WORDS_SIZE) != 0)
        return "is refused, and leaves other words";
    if (!exact_holds(&l->key, c->key, c->key_len) || !exact_holds(&l->counter, c->counter, c->counter_len) ||
        !exact_holds(&l->input, c->input, c->input_len))
        return "has changed what was lent for reading";
    return NULL;
}

/* Of words that a caller filled: a refused call changes nothing. */
static const char *poked_difference(const struct lent *l, uint32_t found)
{
    if (found != FOX_SERVED && (!exact_holds(&l->out, expected, 0) || memcmp(l->words.at, now.words, WORDS_SIZE) != 0))
        return "is refused, and changes words or output";
    return NULL;
}

/* The plain machine has made the call, and its output stands at `expected`. */
static void hold(enum session_verb verb, const struct session_call *c, const struct second_session *before,
                 uint32_t right)
{
    struct lent l = lend(c);
    struct session_call made = *c;
    made.key = l.key.at, made.counter = l.counter.at, made.input = l.input.at, made.out = l.out.at;
    made.session = (uint64_t *)(void *)l.words.at;
    exact_paint(&l.out, expected, right == FOX_SERVED && !now.poked ? c->out_len : 0);
    uint32_t found = make_session_call(verb, &made);
    const char *wrong = now.poked ? poked_difference(&l, found) : difference(verb, c, &l, right, found);
    count_answer(now.poked ? found : right);
    if (wrong != NULL) {
        printf("session: for %s, cipher %" PRIu32 ", rounds %" PRIu32 ", at %" PRIu64 "%s: ",
               before->sealing ? "sealing" : before->cipher != 0 ? "opening" : "nothing", before->cipher,
               before->rounds, before->position, now.shortened ? ", shortened" : "");
        show_session_call(verb, c);
        printf(": %s (%" PRIu32 ", right is %" PRIu32 ")\n", wrong, found, right);
        fflush(stdout);
        abort();
    }
    memcpy(now.words, l.words.at, WORDS_SIZE);
    take_back(&l);
}

/* Few rounds most often, since many take their time. */
static uint32_t some_rounds(uint8_t kind)
{
    if (kind >= ODD)
        return (kind - ODD) * 25u;
    return kind < ODD - 8 ? FOX_LEAST_ROUNDS + kind % 6 : FOX_MOST_ROUNDS;
}

/* One that is served, or, of the odd ones, one that is too long or too short to seal with. */
static size_t some_key_len(uint8_t kind, int opening)
{
    const size_t least = opening ? 0 : FOX_LEAST_SEAL_KEY;
    if (kind < ODD)
        return least + kind % (FOX_MOST_KEY + 1 - least);
    return kind % 2 == 0 ? FOX_MOST_KEY + 1 + kind % 8u : kind % (size_t)FOX_LEAST_SEAL_KEY;
}

/* The counter block ends with ones but for its last byte, and has nothing else every other time. */
static void start(void)
{
    uint8_t key[64], counter[2 * FOX128_BLOCK];
    const struct second_session before = now.plain;
    const int opening = take() % 2;
    uint8_t cipher = take(), rounds = take(), key_len = take(), ones = take();
    struct session_call c = {.key = key, .counter = counter, .input = data, .out = expected};
    c.cipher = cipher >= ODD ? cipher : cipher % 2 == 0 ? FOX64 : FOX128;
    c.rounds = some_rounds(rounds);
    c.key_len = some_key_len(key_len, opening);
    c.counter_len = (c.cipher == FOX128 ? FOX128_BLOCK : FOX64_BLOCK) + (ones >= ODD ? ones % 3 - 1 : 0);
    for (size_t i = 0; i < sizeof key; i++)
        key[i] = (uint8_t)(i * 37 + 1);
    memset(counter, 0xFF, sizeof counter);
    memset(counter, 0xA5, ones % 2 == 0 ? 0 : c.counter_len / 2);
    counter[c.counter_len - 1] = take();
    uint32_t right = second_session_start(&now.plain, opening, c.cipher, c.rounds, key, c.key_len, counter,
                                          c.counter_len);
    now.poked = now.shortened = 0;
    hold(start_verb(opening), &c, &before, right);
}

/* The machine's answer, unless the session seals and was shortened: then it is refused, and the machine as it was. */
static uint32_t right_answer(const struct second_session *before, uint32_t answer)
{
    if (!now.shortened || !before->sealing)
        return answer;
    now.plain = *before;
    return FOX_REFUSED_SHORT_KEY;
}

/* Lengths at and around blocks, and few of those that take their time. */
static size_t some_length(uint8_t kind, uint8_t number, int *longs)
{
    static const size_t more[] = {FOX_MOST_DATA - 1, FOX_MOST_DATA, FOX_MOST_DATA + 1, FOX_MOST_DATA + 2};
    const uint64_t left = FOX_RUN_END - now.plain.position;
    if (kind < 200)
        return number % 72;
    if (kind < 220)
        return left < 2000 ? (size_t)left + number % 3 : number * 4u;
    return kind >= ODD && (*longs)++ < MOST_LONG ? more[number % 4] : number * 8u;
}

static void advance(int *longs)
{
    const struct second_session before = now.plain;
    uint8_t kind = take(), number = take();
    struct session_call c = {.key = data, .counter = data, .input = data, .out = expected};
    c.input_len = c.out_len = some_length(kind, number, longs);
    if (kind % 16 == 15)
        c.out_len = c.input_len > 0 && number % 2 == 0 ? c.input_len - 1 : c.input_len + 1;
    uint32_t answer = second_session_advance(&now.plain, data, c.input_len, expected, c.out_len);
    hold(SESSION_ADVANCE, &c, &before, right_answer(&before, answer));
}

static uint64_t some_position(uint8_t kind, uint8_t number)
{
    const uint64_t here = now.plain.position, end_of_run = FOX_RUN_END;
    const uint64_t bases[] = {0, 0, here, here - 16, end_of_run - 32, end_of_run, end_of_run - 255, number * 4000000ull,
                              256ull * number, 1ull << 31, 1ull << 32, 1ull << 63, 0ull - 16};
    return bases[kind % (sizeof bases / sizeof *bases)] + number % 33;
}

static void move(void)
{
    const struct second_session before = now.plain;
    uint8_t kind = take(), number = take();
    struct session_call c = {.key = data, .counter = data, .input = data, .out = expected};
    c.position = some_position(kind, number);
    hold(SESSION_MOVE, &c, &before, right_answer(&before, second_session_move(&now.plain, c.position)));
}

static void shorten(void)
{
    now.words[KEY_LEN] = take() % FOX_LEAST_SEAL_KEY;
    now.shortened = 1;
}

/* The last nine words are not round keys. */
static void poke(void)
{
    static const uint64_t values[] = {0, 1, 11, 12, 33, 64, 128, 255, 256, FOX_RUN_END - 1, FOX_RUN_END,
                                      FOX_RUN_END + 1ull, 1ull << 31, (1ull << 32) + 64, (1ull << 32) + 128, UINT64_MAX};
    uint8_t which = take(), value = take();
    now.words[which < 128 ? FOX_SESSION_WORDS - 1u - which % 9u : 4u * (which - 128u)] = values[value % 16];
    now.poked = 1;
}

int LLVMFuzzerTestOneInput(const uint8_t *bytes, size_t len)
{
    int longs = 0;
    at = bytes, end = bytes + len;
    for (size_t i = 0; i < sizeof data; i++)
        data[i] = (uint8_t)(i * 29 + i / 256);
    memset(now.words, 0x5A, sizeof now.words);
    memset(&now.plain, 0, sizeof now.plain);
    start();
    kept = now;
    for (int i = 0; i < MOST_CALLS && at < end; i++) {
        uint8_t call = take() % CALLS;
        if (call == CALL_MOVE)
            move();
        else if (call == CALL_KEEP)
            kept = now;
        else if (call == CALL_GO_BACK)
            now = kept;
        else if (call == CALL_START)
            start();
        else if (call == CALL_POKE)
            poke();
        else if (call == CALL_SHORTEN)
            shorten();
        else
            advance(&longs);
    }
    return 0;
}
