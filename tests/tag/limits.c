/* The longest message, and longer ones, with no memory behind them. */
#include "faults.h"
#include "fox.h"
#include "lent.h"
#include "tag.h"
#include "tally.h"

#include <stdint.h>
#include <stdio.h>

/* A message at the limit is read, which faults inside it; whatever is looked at before it is answered. */
static void check_read(const struct engine *engine, enum verb verb, const struct call *c)
{
    uint32_t answer = make_caught(engine, verb, c);
    const uint8_t *place = fault_place();
    if (case_wrong(answer == FAULTED && place >= c->data && place < c->data + c->data_len))
        printf("%s %s: a message of %zu bytes is not read, and the call answers %u\n", engine->name, verbs[verb].name,
               c->data_len, (unsigned)answer);
}

static void at_limit(const struct engine *engine, struct call c)
{
    c.data = nowhere, c.data_len = FOX_MOST_MESSAGE;
    check_read(engine, MAKE_TAG, &c);
    check_read(engine, TEST_TAG, &c);
    c.first_len--, c.out_len--;
    check_refused(engine, MAKE_TAG, &c, FOX_REFUSED_OUTPUT);
    check_refused(engine, TEST_TAG, &c, FOX_REFUSED_TAG_LENGTH);
    c.cipher++;
    check_refused(engine, MAKE_TAG, &c, FOX_REFUSED_CIPHER);
    check_refused(engine, TEST_TAG, &c, FOX_REFUSED_CIPHER);
}

static void above_limit(const struct engine *engine, struct call c, size_t len)
{
    for (enum verb verb = MAKE_TAG; verb <= TEST_TAG; verb++) {
        struct call other = c;
        other.data = nowhere, other.data_len = len;
        check_refused(engine, verb, &other, FOX_REFUSED_DATA);
        other.first_len++, other.out_len++;
        check_refused(engine, verb, &other, FOX_REFUSED_DATA);
        other.cipher++;
        check_refused(engine, verb, &other, FOX_REFUSED_CIPHER);
    }
}

void limits(const struct engine *engine)
{
    group_begin("messages at the limit, and above it with no memory behind them: %s", engine->name);
    for (uint32_t cipher = FOX64; cipher <= FOX128; cipher += FOX64) {
        struct call c = served_call(engine, cipher);
        at_limit(engine, c);
        above_limit(engine, c, (size_t)FOX_MOST_MESSAGE + 1);
        above_limit(engine, c, (size_t)1 << 32);
        above_limit(engine, c, SIZE_MAX);
    }
    group_end();
}
