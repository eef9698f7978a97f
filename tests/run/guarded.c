/* Buffers beside pages that may not be touched. */
#include "chance.h"
#include "check.h"
#include "fox.h"
#include "laid.h"
#include "lent.h"
#include "run.h"
#include "setting.h"
#include "spoil.h"
#include "tally.h"

/* One case for either end of the buffers' rooms; `answer` is what is to stand in the output. */
static void laid(const struct engine *engine, enum verb verb, const struct call *c, uint32_t right,
                 const uint8_t *answer)
{
    for (int at_end = 0; at_end < 2; at_end++) {
        const char *wrong = laid_wrong(engine, verb, c, at_end, right, answer);
        check(wrong == NULL, engine, verb, c, wrong);
    }
}

/* What every other engine puts out over buffers elsewhere, so that one that errs is not held to itself. */
static const uint8_t *by_others(const struct engine *engine, enum verb verb, struct call c)
{
    static uint8_t first[FOX_MOST_DATA], next[FOX_MOST_DATA];
    const uint8_t *answer = NULL;
    for (size_t i = 0; i < ENGINES; i++) {
        if (&engines[i] == engine)
            continue;
        c.out = answer == NULL ? first : next;
        check_answer(&engines[i], verb, &c, FOX_SERVED);
        if (answer != NULL)
            check_bytes(next, first, &engines[i], verb, &c, "the output from that of another engine");
        answer = first;
    }
    return answer;
}

static void laid_served(const struct engine *engine, enum verb verb, uint32_t cipher, size_t len, uint64_t offset)
{
    struct call c = served_call(cipher);
    c.rounds = FOX_LEAST_ROUNDS + (len < FOX_MOST_DATA - 1 ? (uint32_t)below(3) : 0);
    c.key_len = some_key_len(verb);
    c.offset = offset;
    c.data_len = c.out_len = len;
    laid(engine, verb, &c, FOX_SERVED, by_others(engine, verb, c));
}

/* Refusals of the output and of the end want bytes to refuse. */
static void laid_spoilt(const struct engine *engine, enum verb verb, uint32_t cipher, size_t len)
{
    for (size_t i = 0; i < spoil_count; i++) {
        struct call c = served_call(cipher);
        uint32_t right = answer_by(verb, spoils[i].number);
        c.data_len = c.out_len = len;
        if (spoils[i].vast || (len == 0 && (right == FOX_REFUSED_OUTPUT || right == FOX_REFUSED_END)))
            continue;
        spoil_call(&c, &spoils[i]);
        laid(engine, verb, &c, right, right == FOX_SERVED ? by_others(engine, verb, c) : lent.out);
    }
}

static void of_cipher(const struct engine *engine, enum verb verb, uint32_t cipher)
{
    size_t block = block_of(cipher);
    for (size_t len = 0; len <= 5 * block + 1; len++) {
        laid_served(engine, verb, cipher, len, 0);
        laid_served(engine, verb, cipher, len, 1 + below(block - 1));
        laid_served(engine, verb, cipher, len, block * 1000 - 1);
        laid_served(engine, verb, cipher, len, FOX_RUN_END - len);
    }
    for (size_t blocks = 0; blocks <= 4; blocks++) {
        laid_spoilt(engine, verb, cipher, blocks * block);
        laid_spoilt(engine, verb, cipher, blocks * block + 1);
        laid_spoilt(engine, verb, cipher, (blocks + 1) * block - 1);
    }
    laid_served(engine, verb, cipher, FOX_MOST_DATA - 1, below(block));
    laid_served(engine, verb, cipher, FOX_MOST_DATA, below(block));
}

void guarded(const struct engine *engine)
{
    group_begin("buffers beside pages not to be touched: %s", engine->name);
    for (uint32_t cipher = FOX64; cipher <= FOX128; cipher += FOX64) {
        of_cipher(engine, SEAL_RUN, cipher);
        of_cipher(engine, OPEN_RUN, cipher);
    }
    group_end();
}
