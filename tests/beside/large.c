/* Lengths just above that of the longest message, and lengths of 4 GiB and more, whose lower 32 bits are right: a
 * library that keeps a length in 32 bits would serve these calls. Behind each pointer there are as many bytes as the
 * length says, in pages that are never touched. */
#define _GNU_SOURCE
#include "beside.h"
#include "count.h"
#include "faults.h"
#include "fox.h"
#include "groups.h"
#include "tally.h"

#include <inttypes.h>
#include <stdio.h>
#include <string.h>
#include <sys/mman.h>

#define FOUR_GIB (1ull << 32)

enum { MARGIN = 1 << 20, WRITABLE = 1 << 16 };

struct lengths {
    uint64_t key, first, data, out;
};

static const uint8_t *in;
static uint8_t *out;

/* All zeros; only the front of `out` may be written. */
static int map_both(void)
{
    size_t size = FOUR_GIB + MARGIN;
    void *a = mmap(NULL, size, PROT_READ, MAP_PRIVATE | MAP_ANONYMOUS | MAP_NORESERVE, -1, 0);
    void *b = mmap(NULL, size, PROT_READ, MAP_PRIVATE | MAP_ANONYMOUS | MAP_NORESERVE, -1, 0);
    if (a == MAP_FAILED || b == MAP_FAILED || mprotect(b, WRITABLE, PROT_READ | PROT_WRITE) != 0)
        return 0;
    in = a;
    out = b;
    return 1;
}

static int untouched(void)
{
    for (size_t i = 0; i < WRITABLE; i++)
        if (out[i] != 0)
            return 0;
    return 1;
}

static void try(const struct engine *engine, enum verb verb, uint32_t cipher, struct lengths l)
{
    struct call c = {cipher, FOX_LEAST_ROUNDS, in, l.key, in, l.first, 0, in, l.data, out, l.out};
    uint32_t right = second_answer(verb, &c), answer = make_caught(engine, verb, &c);
    if (case_wrong(answer == right && answer != FOX_SERVED && untouched()))
        printf("%s %s, cipher %" PRIu32 ", key of %" PRIu64 ", block, counter or stored tag of %" PRIu64
               ", data or message of %" PRIu64 ", output or tag of %" PRIu64 " bytes: answers %" PRIu32
               " and not %" PRIu32 ", or writes\n",
               engine->name, verbs[verb].name, cipher, l.key, l.first, l.data, l.out, answer, right);
    memset(out, 0, WRITABLE);
}

/* Whether the verb has a use for one that is too large for all of them. */
static int too_large(enum verb verb, struct lengths l)
{
    const uint64_t most = FOX_MOST_MESSAGE;
    const struct verb_kind *kind = &verbs[verb];
    return l.key > most || (kind->first != NULL && l.first > most) || (kind->data != NULL && l.data > most) ||
           (kind->out != NULL && l.out > most);
}

static void try_lengths(const struct engine *engine, uint32_t cipher, struct lengths l)
{
    for (enum verb verb = 0; verb < VERBS; verb++)
        if (too_large(verb, l))
            try(engine, verb, cipher, l);
}

void large_lengths(void)
{
    group_begin("lengths above a message's limit, and of 4 GiB and more");
    if (!map_both() && case_wrong(0))
        printf("this machine gives no addresses for 4 GiB\n");
    for (size_t i = 0; out != NULL && i < ENGINES; i++)
        for (uint32_t cipher = FOX64; cipher <= FOX128; cipher += FOX64) {
            const uint64_t b = block_of(cipher), above = (uint64_t)FOX_MOST_MESSAGE + 1;
            const struct lengths lengths[] = {
                {FOUR_GIB + 16, b, b, b},
                {FOUR_GIB, b, b, b},
                {16, FOUR_GIB + b, FOUR_GIB + b, FOUR_GIB + b},
                {15, FOUR_GIB + b, FOUR_GIB + b, FOUR_GIB + b},
                {16, FOUR_GIB + b, b, b},
                {16, b, FOUR_GIB + b, FOUR_GIB + b},
                {16, b, FOUR_GIB + b, b},
                {16, b, FOUR_GIB, 0},
                {16, b, b, FOUR_GIB + b},
                {16, b, 0, FOUR_GIB},
                {16, b, above, b},
                {16, b + 1, above, b + 1},
                {FOX_MOST_KEY, b, above, b - 1},
                {FOX_MOST_KEY + 1, b, above, b},
            };
            for (size_t j = 0; j < COUNT(lengths); j++)
                try_lengths(&engines[i], cipher, lengths[j]);
        }
    group_end();
}
