/* Cases of calls on a session, made by the library and by the plain machine. */
#include "pair.h"
#include "answers.h"
#include "call.h"
#include "chance.h"
#include "faults.h"
#include "hex.h"
#include "second.h"
#include "tally.h"

#include <inttypes.h>
#include <stdio.h>
#include <string.h>

/* Of an engine's work on one stretch only a part is asked for here, since stretches are many. */
enum { PART_OF_WORK = 32 };

static const uint64_t no_words[FOX_SESSION_WORDS];

struct setting some_setting(size_t kind)
{
    struct setting s = {.opening = kind % KINDS >= KINDS / 2, .cipher = kind % 2 == 0 ? FOX64 : FOX128};
    const size_t least = s.opening ? 0 : FOX_LEAST_SEAL_KEY;
    s.rounds = FOX_LEAST_ROUNDS + (uint32_t)below(4);
    s.key_len = least + below(FOX_MOST_KEY + 1 - least);
    s.counter_len = block_of(s.cipher);
    fill(s.key, sizeof s.key);
    fill(s.counter, sizeof s.counter);
    return s;
}

uint32_t first_fault(const uint32_t *numbers, unsigned chosen, int opening)
{
    const unsigned looked_for = opening ? chosen & ~(unsigned)SHORT : chosen;
    return looked_for == 0 ? FOX_SERVED : numbers[__builtin_ctz(looked_for)];
}

const uint8_t *some_input(size_t len)
{
    static uint8_t bytes[INPUT_ROOM];
    static int filled;
    if (!filled)
        fill(bytes, sizeof bytes);
    filled = 1;
    return bytes + below(sizeof bytes - len + 1);
}

uint64_t left_of(const struct pair *p)
{
    return FOX_RUN_END - p->plain.position;
}

static void show_machine(const struct second_session *m)
{
    if (m->cipher == 0) {
        printf("on what was not started: ");
        return;
    }
    printf("for %s, cipher %" PRIu32 ", rounds %" PRIu32 ", key ", m->sealing ? "sealing" : "opening", m->cipher,
           m->rounds);
    hex_print(m->key, m->key_len);
    printf(", counter ");
    hex_print(m->counter, m->cipher / 8);
    printf(", at %" PRIu64 ": ", m->position);
}

static void count_case(const struct second_session *before, enum session_verb verb, const struct session_call *c,
                       const char *wrong)
{
    if (!case_wrong(wrong == NULL))
        return;
    show_machine(before);
    show_session_call(verb, c);
    printf(": %s\n", wrong);
}

/* Where the plain machine stands now the library's session does, too: the bytes that come next, over zeros, are the key
 * stream there. They go on into the block after the one in use. The pair's own words stay. */
static int stands(const struct pair *p)
{
    static const uint8_t zeros[FOX128_BLOCK + 1];
    uint64_t words[FOX_SESSION_WORDS];
    uint8_t lent[sizeof zeros], right[sizeof zeros];
    struct second_session plain = p->plain;
    const char *kept = NULL;
    size_t len = block_of(plain.cipher) + 1;
    if (len > left_of(p))
        len = (size_t)left_of(p);
    second_session_advance(&plain, zeros, len, right, len);
    for (size_t i = 0; i < len; i++)
        lent[i] = (uint8_t)~right[i];
    memcpy(words, p->words, sizeof words);
    struct session_call c = {.session = words, .input = zeros, .input_len = len, .out = lent, .out_len = len};
    return laid_call(SESSION_ADVANCE, &c, right, &kept) == FOX_SERVED && kept == NULL;
}

/* What is wrong with the call in words. The words of the pair are those that the call has left. */
static const char *wrong_call(struct pair *p, enum session_verb verb, const struct session_call *c, uint32_t right,
                              const uint8_t *out)
{
    static char words[64];
    uint64_t before[FOX_SESSION_WORDS];
    const char *kept;
    memcpy(before, p->words, sizeof before);
    uint32_t found = laid_call(verb, c, out, &kept);
    if (found == FAULTED)
        return kept;
    if (found != right) {
        snprintf(words, sizeof words, "answers %" PRIu32 " and not %" PRIu32, found, right);
        return words;
    }
    if (kept != NULL)
        return kept;
    if (right == FOX_SERVED)
        return stands(p) ? NULL : "leaves a session that goes on otherwise";
    if (memcmp(p->words, is_start(verb) ? no_words : before, sizeof before) != 0)
        return is_start(verb) ? "is refused, and not all words are zero" : "is refused, and changes the session";
    return NULL;
}

/* `before` is the plain machine before the call, and the pair has it as it is afterwards. */
static void hold(struct pair *p, const struct second_session *before, enum session_verb verb, struct session_call c,
                 uint32_t right, const uint8_t *out)
{
    c.session = p->words;
    count_answer(right);
    count_case(before, verb, &c, wrong_call(p, verb, &c, right, out));
}

uint32_t try_start(struct pair *p, const struct setting *s)
{
    struct session_call c = {.cipher = s->cipher, .rounds = s->rounds, .key = s->key, .key_len = s->key_len,
                             .counter = s->counter, .counter_len = s->counter_len};
    const struct second_session none = {0};
    uint32_t right = second_session_start(&p->plain, s->opening, c.cipher, c.rounds, c.key, c.key_len, c.counter,
                                          c.counter_len);
    hold(p, &none, start_verb(s->opening), c, right, NULL);
    return right;
}

uint32_t try_move(struct pair *p, uint64_t position)
{
    const struct second_session before = p->plain;
    uint32_t right = second_session_move(&p->plain, position);
    hold(p, &before, SESSION_MOVE, (struct session_call){.position = position}, right, NULL);
    return right;
}

/* The same stretch by the engines, from key bytes. */
static void beside_engines(const struct second_session *m, const struct session_call *c, uint32_t right,
                           const uint8_t *answer)
{
    static uint8_t out[INPUT_ROOM];
    for (size_t i = 0; i < ENGINES; i++) {
        const struct engine *e = &engines[i];
        struct call run = {m->cipher, m->rounds, m->key, m->key_len, m->counter, m->cipher / 8, m->position,
                           c->input, c->input_len, out, c->out_len};
        if (right == FOX_SERVED && c->input_len * m->rounds > e->work / PART_OF_WORK)
            continue;
        memcpy(out, c->out, c->out_len);
        uint32_t found = make_caught(e, m->sealing ? SEAL_RUN : OPEN_RUN, &run);
        const char *wrong = found == right && memcmp(out, answer, c->out_len) == 0 ? NULL : "an engine's run differs";
        count_case(m, SESSION_ADVANCE, c, wrong);
    }
}

/* Before the call every byte that is to be written is another one than it has to become. */
uint32_t try_advance(struct pair *p, size_t input_len, size_t out_len)
{
    static uint8_t lent[INPUT_ROOM], answer[INPUT_ROOM];
    const struct second_session before = p->plain;
    const uint8_t *input = some_input(input_len);
    uint32_t right = second_session_advance(&p->plain, input, input_len, answer, out_len);
    for (size_t i = 0; i < out_len; i++)
        lent[i] = right == FOX_SERVED ? (uint8_t)~answer[i] : (uint8_t)(i * 29 + 5);
    const struct session_call c = {.input = input, .input_len = input_len, .out = lent, .out_len = out_len};
    const uint8_t *out = right == FOX_SERVED ? answer : lent;
    hold(p, &before, SESSION_ADVANCE, c, right, out);
    beside_engines(&before, &c, right, out);
    return right;
}

void same_words(const struct pair *a, const struct pair *b, const char *what)
{
    if (case_wrong(memcmp(a->words, b->words, sizeof a->words) == 0))
        printf("%s\n", what);
}

static void said(uint32_t found, uint32_t answer, const char *what)
{
    if (case_wrong(found == answer))
        printf("%s: the plain machine answers %" PRIu32 ", and it should be %" PRIu32 "\n", what, found, answer);
}

void hold_start(struct pair *p, const struct setting *s, uint32_t answer)
{
    said(try_start(p, s), answer, "a start");
}

void hold_advance(struct pair *p, size_t input_len, size_t out_len, uint32_t answer)
{
    said(try_advance(p, input_len, out_len), answer, "an advance");
}

void hold_move(struct pair *p, uint64_t position, uint32_t answer)
{
    said(try_move(p, position), answer, "a move");
}
