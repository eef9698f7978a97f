/* The values at which a call is just served and just refused. Of a key that is too short to seal with the answer is that
 * of sealing; opening is served. */
#include "check.h"
#include "count.h"
#include "fox.h"
#include "lent.h"
#include "run.h"
#include "tally.h"

#include <string.h>

static const struct limit {
    uint32_t cipher, rounds;
    size_t key_len, counter_len, len;
    uint64_t offset;
    uint32_t answer;
} at[] = {
    {0, 16, 16, FOX64_BLOCK, 9, 0, FOX_REFUSED_CIPHER},
    {FOX64 - 1, 16, 16, FOX64_BLOCK, 9, 0, FOX_REFUSED_CIPHER},
    {FOX64, 16, 16, FOX64_BLOCK, 9, 0, FOX_SERVED},
    {FOX64 + 1, 16, 16, FOX64_BLOCK, 9, 0, FOX_REFUSED_CIPHER},
    {FOX128 - 1, 16, 16, FOX128_BLOCK, 9, 0, FOX_REFUSED_CIPHER},
    {FOX128, 16, 16, FOX128_BLOCK, 9, 0, FOX_SERVED},
    {FOX128 + 1, 16, 16, FOX128_BLOCK, 9, 0, FOX_REFUSED_CIPHER},
    {UINT32_MAX, 16, 16, FOX128_BLOCK, 9, 0, FOX_REFUSED_CIPHER},
    {FOX64, FOX_LEAST_ROUNDS - 1, 16, FOX64_BLOCK, 9, 0, FOX_REFUSED_ROUNDS},
    {FOX64, FOX_LEAST_ROUNDS, 16, FOX64_BLOCK, 9, 0, FOX_SERVED},
    {FOX64, FOX_MOST_ROUNDS, 16, FOX64_BLOCK, 9, 0, FOX_SERVED},
    {FOX64, FOX_MOST_ROUNDS + 1, 16, FOX64_BLOCK, 9, 0, FOX_REFUSED_ROUNDS},
    {FOX128, FOX_LEAST_ROUNDS - 1, 16, FOX128_BLOCK, 17, 0, FOX_REFUSED_ROUNDS},
    {FOX128, FOX_LEAST_ROUNDS, 16, FOX128_BLOCK, 17, 0, FOX_SERVED},
    {FOX128, FOX_MOST_ROUNDS, 16, FOX128_BLOCK, 17, 0, FOX_SERVED},
    {FOX128, FOX_MOST_ROUNDS + 1, 16, FOX128_BLOCK, 17, 0, FOX_REFUSED_ROUNDS},
    {FOX64, 16, 0, FOX64_BLOCK, 9, 0, FOX_REFUSED_SHORT_KEY},
    {FOX64, 16, FOX_LEAST_SEAL_KEY - 1, FOX64_BLOCK, 9, 0, FOX_REFUSED_SHORT_KEY},
    {FOX64, 16, FOX_LEAST_SEAL_KEY, FOX64_BLOCK, 9, 0, FOX_SERVED},
    {FOX64, 16, FOX_MOST_KEY, FOX64_BLOCK, 9, 0, FOX_SERVED},
    {FOX64, 16, FOX_MOST_KEY + 1, FOX64_BLOCK, 9, 0, FOX_REFUSED_KEY},
    {FOX128, 16, 0, FOX128_BLOCK, 17, 0, FOX_REFUSED_SHORT_KEY},
    {FOX128, 16, FOX_LEAST_SEAL_KEY - 1, FOX128_BLOCK, 17, 0, FOX_REFUSED_SHORT_KEY},
    {FOX128, 16, FOX_LEAST_SEAL_KEY, FOX128_BLOCK, 17, 0, FOX_SERVED},
    {FOX128, 16, FOX_MOST_KEY, FOX128_BLOCK, 17, 0, FOX_SERVED},
    {FOX128, 16, FOX_MOST_KEY + 1, FOX128_BLOCK, 17, 0, FOX_REFUSED_KEY},
    {FOX64, 16, 16, 0, 9, 0, FOX_REFUSED_BLOCK},
    {FOX64, 16, 16, FOX64_BLOCK - 1, 9, 0, FOX_REFUSED_BLOCK},
    {FOX64, 16, 16, FOX64_BLOCK + 1, 9, 0, FOX_REFUSED_BLOCK},
    {FOX64, 16, 16, FOX128_BLOCK - 1, 9, 0, FOX_REFUSED_BLOCK},
    {FOX64, 16, 16, FOX128_BLOCK, 9, 0, FOX_REFUSED_BLOCK},
    {FOX64, 16, 16, FOX128_BLOCK + 1, 9, 0, FOX_REFUSED_BLOCK},
    {FOX128, 16, 16, 0, 9, 0, FOX_REFUSED_BLOCK},
    {FOX128, 16, 16, FOX64_BLOCK - 1, 9, 0, FOX_REFUSED_BLOCK},
    {FOX128, 16, 16, FOX64_BLOCK, 9, 0, FOX_REFUSED_BLOCK},
    {FOX128, 16, 16, FOX64_BLOCK + 1, 9, 0, FOX_REFUSED_BLOCK},
    {FOX128, 16, 16, FOX128_BLOCK - 1, 9, 0, FOX_REFUSED_BLOCK},
    {FOX128, 16, 16, FOX128_BLOCK + 1, 9, 0, FOX_REFUSED_BLOCK},
    {FOX64, FOX_LEAST_ROUNDS, 16, FOX64_BLOCK, FOX_MOST_DATA, 0, FOX_SERVED},
    {FOX64, FOX_LEAST_ROUNDS, 16, FOX64_BLOCK, FOX_MOST_DATA + 1, 0, FOX_REFUSED_DATA},
    {FOX128, FOX_LEAST_ROUNDS, 16, FOX128_BLOCK, FOX_MOST_DATA, 0, FOX_SERVED},
    {FOX128, FOX_LEAST_ROUNDS, 16, FOX128_BLOCK, FOX_MOST_DATA + 1, 0, FOX_REFUSED_DATA},
    {FOX64, 16, 16, FOX64_BLOCK, 0, FOX_RUN_END, FOX_SERVED},
    {FOX64, 16, 16, FOX64_BLOCK, 1, FOX_RUN_END, FOX_REFUSED_END},
    {FOX64, 16, 16, FOX64_BLOCK, 1, FOX_RUN_END - 1, FOX_SERVED},
    {FOX64, 16, 16, FOX64_BLOCK, 2, FOX_RUN_END - 1, FOX_REFUSED_END},
    {FOX64, 16, 16, FOX64_BLOCK, 0, (uint64_t)FOX_RUN_END + 1, FOX_REFUSED_END},
    {FOX64, FOX_LEAST_ROUNDS, 16, FOX64_BLOCK, FOX_MOST_DATA, FOX_RUN_END - FOX_MOST_DATA + 1, FOX_REFUSED_END},
    {FOX64, 16, 16, FOX64_BLOCK, 0, UINT64_MAX, FOX_REFUSED_END},
    {FOX64, 16, 16, FOX64_BLOCK, 1, UINT64_MAX, FOX_REFUSED_END},
    {FOX64, 16, 16, FOX64_BLOCK, FOX_MOST_DATA, UINT64_MAX, FOX_REFUSED_END},
    {FOX64, 16, 16, FOX64_BLOCK, FOX_MOST_DATA, UINT64_MAX - FOX_MOST_DATA + 1, FOX_REFUSED_END},
    {FOX128, 16, 16, FOX128_BLOCK, 0, FOX_RUN_END, FOX_SERVED},
    {FOX128, 16, 16, FOX128_BLOCK, 1, FOX_RUN_END, FOX_REFUSED_END},
    {FOX128, 16, 16, FOX128_BLOCK, 1, FOX_RUN_END - 1, FOX_SERVED},
    {FOX128, 16, 16, FOX128_BLOCK, 2, FOX_RUN_END - 1, FOX_REFUSED_END},
    {FOX128, 16, 16, FOX128_BLOCK, 0, (uint64_t)FOX_RUN_END + 1, FOX_REFUSED_END},
    {FOX128, 16, 16, FOX128_BLOCK, FOX_MOST_DATA, FOX_RUN_END - FOX_MOST_DATA + 1, FOX_REFUSED_END},
    {FOX128, 16, 16, FOX128_BLOCK, 0, UINT64_MAX, FOX_REFUSED_END},
    {FOX128, 16, 16, FOX128_BLOCK, 1, UINT64_MAX, FOX_REFUSED_END},
    {FOX128, 16, 16, FOX128_BLOCK, FOX_MOST_DATA, UINT64_MAX, FOX_REFUSED_END},
    {FOX128, 16, 16, FOX128_BLOCK, FOX_MOST_DATA, UINT64_MAX - FOX_MOST_DATA + 1, FOX_REFUSED_END},
};

/* What is served is the same bytes by every engine, sealing and opening. */
static void at_limit(const struct limit *l)
{
    static uint8_t first[FOX_MOST_DATA];
    int seen = 0;
    struct call c = {l->cipher, l->rounds, lent.key, l->key_len, lent.counter, l->counter_len, l->offset,
                     lent.data, l->len, lent.out, l->len};
    for (size_t i = 0; i < 2 * ENGINES; i++) {
        const struct engine *engine = &engines[i / 2];
        enum verb verb = i % 2 == 0 ? SEAL_RUN : OPEN_RUN;
        uint32_t right = answer_by(verb, l->answer);
        if (right != FOX_SERVED) {
            check_refused(engine, verb, &c, right);
            continue;
        }
        check_answer(engine, verb, &c, FOX_SERVED);
        if (!seen)
            memcpy(first, lent.out, c.out_len);
        check_bytes(lent.out, first, engine, verb, &c, "the output from that of the first call");
        check_rest(engine, verb, &c);
        seen = 1;
    }
}

void limits(void)
{
    group_begin("limits, served and refused, by every engine, sealing and opening");
    for (size_t i = 0; i < COUNT(at); i++)
        at_limit(&at[i]);
    group_end();
}
