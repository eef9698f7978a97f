/* One call, answered by the second implementation and by every engine of the library. */
#include "beside.h"
#include "answers.h"
#include "chance.h"
#include "laid.h"
#include "tally.h"

#include <stdio.h>

/* What stands in the output before a call that is to be refused, and after it as well. */
static uint8_t *paint(void)
{
    static uint8_t bytes[MOST_LAID];
    static int painted;
    for (size_t i = 0; !painted && i < sizeof bytes; i++)
        bytes[i] = (uint8_t)(i * 29 + 5);
    painted = 1;
    return bytes;
}

/* What stands there before a call that is to be served: every byte is another one than it has to become, so that one
 * left out shows. */
static uint8_t *other_than(const uint8_t *answer, size_t len)
{
    static uint8_t bytes[MOST_LAID];
    for (size_t i = 0; i < len; i++)
        bytes[i] = (uint8_t)~answer[i];
    return bytes;
}

/* What is wrong with an engine's answer, and which engine's; NULL where all are right. The end of their rooms at which
 * the buffers lie is by chance. */
static const char *wrong_answer(enum verb verb, const struct call *c, const struct engine **engine)
{
    static uint8_t answer[MOST_LAID];
    const char *wrong = NULL;
    int at_end = (int)below(2);
    struct call theirs = *c;
    theirs.out = answer;
    theirs.out_len = verbs[verb].out == NULL ? 0 : c->out_len;
    uint32_t right = second_answer(verb, &theirs);
    count_answer(right);
    theirs.out = right == 0 ? other_than(answer, theirs.out_len) : paint();
    for (size_t i = 0; wrong == NULL && i < ENGINES; i++) {
        *engine = &engines[i];
        wrong = laid_wrong(*engine, verb, &theirs, at_end, right, right == 0 ? answer : theirs.out);
    }
    return wrong;
}

static void try(const enum verb *tried, size_t count, const struct call *c)
{
    const char *wrong = NULL;
    const struct engine *engine = NULL;
    size_t i = 0;
    while (i < count && (wrong = wrong_answer(tried[i], c, &engine)) == NULL)
        i++;
    if (case_wrong(wrong == NULL)) {
        printf("%s %s: ", engine->name, verbs[tried[i]].name);
        show_call(tried[i], c);
        printf(": %s\n", wrong);
    }
}

void try_block(const struct call *c)
{
    try((const enum verb[]){SEAL, OPEN}, 2, c);
}

void try_run(const struct call *c)
{
    try((const enum verb[]){SEAL_RUN, OPEN_RUN}, 2, c);
}

void try_tag(const struct call *c)
{
    try((const enum verb[]){MAKE_TAG, TEST_TAG}, 2, c);
}
