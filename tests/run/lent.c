/* What the calls here are lent. */
#define _GNU_SOURCE
#include "lent.h"
#include "chance.h"
#include "check.h"

#include <stdio.h>
#include <string.h>
#include <sys/mman.h>

struct lent lent, before;
uint8_t *vast_input, *vast_output;

void prepare_lent(void)
{
    const size_t size = ((size_t)1 << 32) + 2 * FOX_MOST_DATA;
    const int flags = MAP_PRIVATE | MAP_ANONYMOUS | MAP_NORESERVE;
    uint8_t *in = mmap(NULL, size, PROT_READ | PROT_WRITE, flags, -1, 0);
    uint8_t *out = mmap(NULL, size, PROT_READ | PROT_WRITE, flags, -1, 0);
    vast_input = in == MAP_FAILED ? NULL : in;
    vast_output = out == MAP_FAILED ? NULL : out;
    if (vast_input == NULL || vast_output == NULL)
        printf("run: left out: lengths above 32 bits, since there is no room for them\n");
    fill((uint8_t *)&lent, sizeof lent);
    before = lent;
}

struct call served_call(uint32_t cipher)
{
    return (struct call){cipher, 16, lent.key, 16, lent.counter, block_of(cipher), 1000, lent.data, CASE_LEN,
                         lent.out, CASE_LEN};
}

void check_refused(const struct engine *engine, enum verb verb, const struct call *c, uint32_t number)
{
    static const uint8_t zeros[4096];
    check_answer(engine, verb, c, number);
    int same = memcmp(&lent, &before, sizeof lent) == 0;
    if (vast_output != NULL)
        same = same && memcmp(vast_output, zeros, sizeof zeros) == 0;
    if (!check(same, engine, verb, c, "a refused call changed what it was lent"))
        lent = before;
}

void check_rest(const struct engine *engine, enum verb verb, const struct call *c)
{
    memcpy(lent.out, before.out, c->out_len);
    int same = memcmp(&lent, &before, sizeof lent) == 0;
    if (!check(same, engine, verb, c, "a served call changed more than its output"))
        lent = before;
}
