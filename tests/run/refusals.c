/* Spoilt calls and their refusals. */
#include "chance.h"
#include "check.h"
#include "fox.h"
#include "lent.h"
#include "run.h"
#include "spoil.h"
#include "tally.h"

/* Where all that was spoilt is a key that is to open, the call is served. */
static void check_spoilt(const struct engine *engine, enum verb verb, const struct call *c, uint32_t right)
{
    if (right != FOX_SERVED) {
        check_refused(engine, verb, c, right);
        return;
    }
    check_answer(engine, verb, c, FOX_SERVED);
    check_rest(engine, verb, c);
}

static void one_spoil_or_two(const struct engine *engine, enum verb verb, uint32_t cipher)
{
    struct call served = served_call(cipher);
    for (size_t i = 0; i < spoil_count; i++) {
        struct call one = served;
        if (!spoil_call(&one, &spoils[i]))
            continue;
        uint32_t first = answer_by(verb, spoils[i].number);
        check_spoilt(engine, verb, &one, first);
        for (size_t j = i + 1; j < spoil_count; j++) {
            struct call two = one;
            if (spoils[j].number != spoils[i].number && spoil_call(&two, &spoils[j]))
                check_spoilt(engine, verb, &two, first != FOX_SERVED ? first : answer_by(verb, spoils[j].number));
        }
    }
}

/* One of the spoils with this number, by chance. */
static const struct spoil *some_spoil(uint32_t number)
{
    const struct spoil *s;
    do
        s = &spoils[below(spoil_count)];
    while (s->number != number || s->vast);
    return s;
}

/* A spoil of each number that has its bit in `chosen`. */
static void many_spoils(const struct engine *engine, enum verb verb, uint32_t cipher, const uint32_t *numbers,
                        unsigned chosen)
{
    struct call c = served_call(cipher);
    uint32_t first = FOX_SERVED;
    for (size_t i = 0; chosen >> i != 0; i++)
        if ((chosen >> i & 1) != 0) {
            spoil_call(&c, some_spoil(numbers[i]));
            first = first == FOX_SERVED ? answer_by(verb, numbers[i]) : first;
        }
    check_spoilt(engine, verb, &c, first);
}

static void of_verb(const struct engine *engine, enum verb verb, uint32_t cipher)
{
    uint32_t numbers[MOST_NUMBERS];
    size_t count = spoil_numbers(numbers);
    one_spoil_or_two(engine, verb, cipher);
    for (unsigned chosen = 1; chosen < 1u << count; chosen++)
        many_spoils(engine, verb, cipher, numbers, chosen);
}

void refusals(const struct engine *engine)
{
    group_begin("refusals, one spoil, two and more, nothing changed: %s", engine->name);
    for (uint32_t cipher = FOX64; cipher <= FOX128; cipher += FOX64) {
        of_verb(engine, SEAL_RUN, cipher);
        of_verb(engine, OPEN_RUN, cipher);
    }
    group_end();
}
