/* What the calls here are lent. */
#include "lent.h"
#include "chance.h"
#include "check.h"
#include "faults.h"
#include "rooms.h"
#include "tally.h"

#include <stdio.h>
#include <stdlib.h>
#include <string.h>

struct lent lent, before;
const uint8_t *nowhere;

void prepare_lent(void)
{
    nowhere = no_room((size_t)FOX_MOST_MESSAGE + (1 << 20));
    if (nowhere == NULL)
        abort();
    fill((uint8_t *)&lent, sizeof lent);
}

struct call served_call(const struct engine *engine, uint32_t cipher)
{
    struct call c = {cipher, 16, lent.key, below(FOX_MOST_KEY + 1), lent.stored, block_of(cipher), 0, lent.message,
                     CASE_LEN, lent.stored, block_of(cipher)};
    check_answer(engine, MAKE_TAG, &c, FOX_SERVED);
    before = lent;
    c.out = lent.tag;
    return c;
}

void check_refused(const struct engine *engine, enum verb verb, const struct call *c, uint32_t number)
{
    struct lent as_lent = lent;
    check_answer(engine, verb, c, number);
    int same = memcmp(&lent, &as_lent, sizeof lent) == 0;
    if (case_wrong(same))
        printf("%s %s changed what it was lent, though it refused with %u\n", engine->name, verbs[verb].name,
               (unsigned)number);
    lent = before;
}
