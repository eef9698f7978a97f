/* Cases of a run by one engine. */
#include "check.h"
#include "faults.h"
#include "fox.h"
#include "tally.h"

#include <inttypes.h>
#include <stdio.h>

int check(int right, const struct engine *engine, enum verb verb, const struct call *c, const char *what)
{
    if (case_wrong(right)) {
        printf("%s %s, ", engine->name, verbs[verb].name);
        show_call(verb, c);
        printf(": %s\n", what);
    }
    return right;
}

void check_answer(const struct engine *engine, enum verb verb, const struct call *c, uint32_t right)
{
    char what[64];
    uint32_t answer = make_caught(engine, verb, c);
    if (answer == FAULTED)
        snprintf(what, sizeof what, "faulted at %p", (const void *)fault_place());
    else
        snprintf(what, sizeof what, "answered %" PRIu32 " and not %" PRIu32, answer, right);
    check(answer == right, engine, verb, c, what);
}

void check_bytes(const uint8_t *found, const uint8_t *expected, const struct engine *engine, enum verb verb,
                 const struct call *c, const char *of)
{
    char what[128];
    size_t i = 0;
    while (i < c->data_len && found[i] == expected[i])
        i++;
    snprintf(what, sizeof what, "%s differs, first at byte %zu", of, i);
    check(i == c->data_len, engine, verb, c, what);
}

uint32_t answer_by(enum verb verb, uint32_t number)
{
    return number == FOX_REFUSED_SHORT_KEY && !verbs[verb].seals ? FOX_SERVED : number;
}
