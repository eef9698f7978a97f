/* Lists of calls by chance. */
#include "call.h"
#include "chance.h"
#include "count.h"
#include "groups.h"
#include "pair.h"
#include "tally.h"

static struct pair pairs[2];

static size_t some_length(size_t b)
{
    const size_t lengths[] = {0, 1, b - 1, b, b + 1, 2 * b, 4 * b, 4 * b + 1};
    if (below(300) == 0)
        return FOX_MOST_DATA - below(below(2) == 0 ? 3 : FOX_MOST_DATA);
    return below(3) == 0 ? below(10 * b) : ONE_OF(lengths);
}

/* At the edge of a block, one before it or after it, or inside it: of the block in use, its neighbours, the first, the
 * last, or any; one before the run's beginning, and one after its end. */
static uint64_t some_position(const struct pair *p)
{
    const uint64_t b = block_of(p->plain.cipher), here = p->plain.position - p->plain.position % b;
    const uint64_t edges[] = {0, b, here, here, here + b, here - b, here + 4 * b, FOX_RUN_END - b, FOX_RUN_END,
                              below(FOX_RUN_END / b) * b, below(8) * b};
    const uint64_t edge = ONE_OF(edges), steps[] = {0, 1, (uint64_t)-1, below(b)};
    return edge + ONE_OF(steps);
}

/* One of another length than the output, one that is too long, and one past the run's end where that is near. */
static void refused_advance(struct pair *p)
{
    const size_t len = some_length(block_of(p->plain.cipher)), more = FOX_MOST_DATA + 1 + below(3);
    switch (below(left_of(p) < FOX_MOST_DATA ? 4 : 2)) {
    case 0:
        hold_advance(p, len, len == 0 || below(2) == 0 ? len + 1 : len - 1, FOX_REFUSED_OUTPUT);
        break;
    case 1:
        hold_advance(p, more, below(2) == 0 ? more : len, FOX_REFUSED_DATA);
        break;
    default:
        hold_advance(p, (size_t)left_of(p) + 1, (size_t)left_of(p) + 1, FOX_REFUSED_END);
    }
}

/* Positions that would be right if only their lower bits were looked at are among these. */
static void refused_move(struct pair *p)
{
    const uint64_t here = p->plain.position;
    const uint64_t positions[] = {FOX_RUN_END + 1ull, FOX_RUN_END + 1 + below(100), 2ull * FOX_RUN_END, UINT64_MAX,
                                  (1ull << 31) + here, (1ull << 32) + here, (1ull << 32) + below(100),
                                  (1ull << 63) + here, 0 - (1 + below(100))};
    hold_move(p, ONE_OF(positions), FOX_REFUSED_END);
}

/* A start that is refused leaves no session, and none comes of it by any call. */
static void refused_start(const struct pair *p)
{
    static struct pair other;
    struct setting s = some_setting(below(KINDS));
    other = *p;
    switch (below(5)) {
    case 0:
        s.cipher += 1;
        break;
    case 1:
        s.rounds = FOX_MOST_ROUNDS + 1;
        break;
    case 2:
        s.key_len = FOX_MOST_KEY + 1;
        break;
    case 3:
        s.opening = 0, s.key_len = below(FOX_LEAST_SEAL_KEY);
        break;
    default:
        s.counter_len -= 1;
    }
    try_start(&other, &s);
    hold_advance(&other, 3, 3, FOX_REFUSED_CIPHER);
    hold_move(&other, p->plain.position, FOX_REFUSED_CIPHER);
}

static void one_call(struct pair *p)
{
    const size_t len = some_length(block_of(p->plain.cipher));
    switch (below(12)) {
    case 0:
    case 1:
    case 2:
        try_move(p, some_position(p));
        break;
    case 3:
        refused_advance(p);
        break;
    case 4:
        refused_move(p);
        break;
    case 5:
        refused_start(p);
        break;
    default:
        try_advance(p, len, len);
    }
}

static void start_anew(struct pair *p)
{
    struct setting s = some_setting(below(KINDS));
    hold_start(p, &s, FOX_SERVED);
}

/* Now and then one session becomes a copy of the other, or is started anew. */
static void one_list(size_t calls)
{
    for (size_t i = 0; i < COUNT(pairs); i++)
        start_anew(&pairs[i]);
    for (size_t i = 0; i < calls; i++) {
        size_t which = below(COUNT(pairs));
        if (below(20) == 0)
            pairs[which] = pairs[1 - which];
        if (below(40) == 0)
            start_anew(&pairs[which]);
        one_call(&pairs[which]);
    }
}

void lists(void)
{
    enum { LISTS = 300, CALLS = 40 };
    group_begin("lists of calls by chance, refused ones among them, on two sessions that are copied");
    for (int i = 0; i < LISTS; i++)
        one_list(CALLS);
    group_end();
}
