/* What one engine seals another one opens, and a tag that one makes another one tests, for every two of them. */
#include "calls.h"
#include "chance.h"
#include "faults.h"
#include "fox.h"
#include "groups.h"
#include "tally.h"

#include <stdio.h>
#include <string.h>

enum { MOST = 64, PAINT = 0xC3 };

/* Whether a call that is right but for its key is served or refused as the key's length has it; a refused one puts out
 * nothing. */
static const char *wrong_call(const struct engine *engine, enum verb verb, const struct call *c)
{
    uint8_t paint[MOST];
    uint32_t right = key_answer(verb, c->key_len);
    memset(paint, PAINT, sizeof paint);
    memcpy(c->out, paint, c->out_len);
    if (make_caught(engine, verb, c) != right)
        return right == FOX_SERVED ? "refused" : "not refused for its short key";
    return right != FOX_SERVED && memcmp(c->out, paint, c->out_len) != 0 ? "has written though it refused" : NULL;
}

/* What a call puts out by one engine goes into the call that takes it back, by another one, and what went in comes
 * out. With a key that is too short to seal with, the one of the two that seals is refused. */
static const char *not_back(enum verb verb, struct call c, const struct engine *there, const struct engine *back)
{
    static uint8_t out[MOST], again[MOST];
    enum verb back_verb = verbs[verb].back;
    if (back_verb == NO_VERB)
        return NULL;
    c.out = out, c.out_len = right_out_len(verb, &c);
    struct call taking = back_call(verb, &c, again);
    const char *wrong = wrong_call(there, verb, &c);
    if (wrong != NULL || key_answer(verb, c.key_len) != FOX_SERVED)
        return wrong;
    /* Copying would be undone too, so that a block must not be put out as it came. */
    if (verbs[verb].data == NULL && memcmp(out, c.first, c.out_len) == 0)
        return "put out as it came";
    wrong = wrong_call(back, back_verb, &taking);
    if (wrong != NULL || key_answer(back_verb, c.key_len) != FOX_SERVED)
        return wrong;
    return memcmp(again, went_in(verb, &c), taking.out_len) != 0 ? "does not come back" : NULL;
}

static void there_and_back(const struct engine *there, const struct engine *back)
{
    struct call c = right_run(some_cipher(), below(MOST), below(FOX_RUN_END - MOST));
    const char *wrong = NULL;
    enum verb verb = 0;
    while (verb < VERBS && (wrong = not_back(verb, c, there, back)) == NULL)
        verb++;
    if (case_wrong(wrong == NULL)) {
        printf("%s %s and then %s: ", there->name, verbs[verb].name, back->name);
        show_call(verb, &c);
        printf(": %s\n", wrong);
    }
}

void across(void)
{
    group_begin("sealed or tagged by one engine and opened or tested by another, for every two");
    for (int times = 0; times < 1000; times++)
        for (size_t i = 0; i < ENGINES; i++)
            for (size_t j = 0; j < ENGINES; j++)
                if (i != j)
                    there_and_back(&engines[i], &engines[j]);
    group_end();
}
