/* Cases of a tag by one engine. */
#include "check.h"
#include "faults.h"
#include "laid.h"
#include "tally.h"

#include <inttypes.h>
#include <stdio.h>

void check_answer(const struct engine *engine, enum verb verb, const struct call *c, uint32_t right)
{
    uint32_t answer = make_caught(engine, verb, c);
    if (!case_wrong(answer == right))
        return;
    printf("%s %s, cipher %" PRIu32 ", rounds %" PRIu32 ", key of %zu, message of %zu, tag of %zu, room of %zu bytes: ",
           engine->name, verbs[verb].name, c->cipher, c->rounds, c->key_len, c->data_len, c->first_len, c->out_len);
    if (answer == FAULTED)
        printf("faulted at %p, and is to answer %" PRIu32 "\n", (const void *)fault_place(), right);
    else
        printf("answered %" PRIu32 " and not %" PRIu32 "\n", answer, right);
}

void check_laid(const struct engine *engine, enum verb verb, const struct call *c, int at_end, uint32_t right,
                const uint8_t *answer)
{
    const char *wrong = laid_wrong(engine, verb, c, at_end, right, answer);
    if (case_wrong(wrong == NULL)) {
        printf("%s %s: ", engine->name, verbs[verb].name);
        show_call(verb, c);
        printf(": %s\n", wrong);
    }
}
