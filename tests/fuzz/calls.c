/* A fuzzer's input as one call of the library: the answer of every engine beside that of the second implementation, the
 * refusal and every byte, and that what is served is taken back by one of them, or refused where the key that opened it
 * is too short to seal with. Stops the program where anything differs. */
#include "answers.h"
#include "beside.h"
#include "exact.h"
#include "take.h"

#include <inttypes.h>
#include <stdio.h>
#include <stdlib.h>

/* What is lent to a call, each thing in a block of exactly its length. */
struct lent {
    struct exact key, first, data, out;
};

int LLVMFuzzerTestOneInput(const uint8_t *bytes, size_t len);

static struct lent lend(const struct call *c)
{
    return (struct lent){exact_copy(c->key, c->key_len), exact_copy(c->first, c->first_len),
                         exact_copy(c->data, data_behind(c)), exact_room(c->out_len)};
}

static void take_back(struct lent *l)
{
    exact_free(&l->key);
    exact_free(&l->first);
    exact_free(&l->data);
    exact_free(&l->out);
}

static const char *difference(const struct call *c, const struct lent *l, const uint8_t *expected, size_t count)
{
    if (!exact_holds(&l->out, expected, count))
        return count == 0 ? "has written though it refused" : "has written another byte, or left one out";
    if (!exact_holds(&l->key, c->key, c->key_len) || !exact_holds(&l->first, c->first, c->first_len) ||
        !exact_holds(&l->data, c->data, data_behind(c)))
        return "has changed what was lent for reading";
    return NULL;
}

/* Makes the call, and holds it to a refusal and to the bytes at `expected`. */
static void hold(const struct engine *engine, enum verb verb, const struct call *c, uint32_t right,
                 const uint8_t *expected)
{
    size_t count = right == 0 ? c->out_len : 0;
    struct lent l = lend(c);
    struct call made = *c;
    made.key = l.key.at, made.first = l.first.at, made.data = l.data.at, made.out = l.out.at;
    exact_paint(&l.out, expected, count);
    uint32_t refusal = make_call(engine, verb, &made);
    const char *wrong = refusal == right ? difference(c, &l, expected, count) : "answers with another refusal";
    if (wrong != NULL) {
        printf("calls: %s %s: ", engine->name, verbs[verb].name);
        show_call(verb, c);
        printf(": %s (%" PRIu32 ", right is %" PRIu32 ")\n", wrong, refusal, right);
        fflush(stdout);
        abort();
    }
    take_back(&l);
}

/* What came out goes into the call that takes it back, and what went in is to come out, where the key does for that. */
static void hold_back(const struct job *job)
{
    const enum verb verb = verbs[job->verb].back;
    struct call back = back_call(job->verb, &job->call, NULL);
    hold(job->back, verb, &back, key_answer(verb, back.key_len), went_in(job->verb, &job->call));
}

int LLVMFuzzerTestOneInput(const uint8_t *bytes, size_t len)
{
    static uint8_t expected[LONG_ROOM];
    struct job job = take_job(bytes, len);
    job.call.out = expected;
    uint32_t right = second_answer(job.verb, &job.call);
    count_answer(right);
    for (size_t i = 0; i < ENGINES; i++)
        hold(&engines[i], job.verb, &job.call, right, expected);
    if (right == 0 && verbs[job.verb].back != NO_VERB)
        hold_back(&job);
    return 0;
}
