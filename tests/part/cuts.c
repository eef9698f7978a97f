/* Blocks cut into more than two parts. */
#include "chance.h"
#include "groups.h"
#include "tally.h"
#include "try.h"

#include <string.h>

static void one_at_a_time(const struct setting *s)
{
    const struct second_stops *stops = stops_of(s);
    struct kept k = begun(s);
    while (k.done < s->rounds) {
        go_on(s, &k, k.done + 1);
        same_stop(s, &k, stops, k.done);
    }
}

void single_rounds(void)
{
    group_begin("a block one round at a time: all lengths of keys, and 255 rounds");
    for (uint32_t way = 0; way < 4; way++)
        for (uint32_t turn = 0; turn <= KEY_TURNS; turn++) {
            struct setting s = some_setting(way % 2, way < 2 ? FOX64 : FOX128);
            s.rounds = turn == KEY_TURNS ? FOX_MOST_ROUNDS : s.rounds;
            s.key_len = turn == KEY_TURNS ? s.key_len : key_len_by(s.sealing, turn);
            one_at_a_time(&s);
        }
    group_end();
}

/* Up to eight rounds in a part, and now and then none, up to the same round again or to an earlier one. Answers with what is
 * kept at last. */
static struct kept cut(const struct setting *s)
{
    const struct second_stops *stops = stops_of(s);
    struct kept k = begun(s);
    while (k.done < s->rounds) {
        go_on(s, &k, below(5) == 0 ? (uint32_t)below(k.done + 1) : k.done + 1 + (uint32_t)below(8));
        same_stop(s, &k, stops, k.done);
    }
    return k;
}

/* What was sealed is opened, or the other way about, with other cuts. What a short key has opened is not sealed again. */
static void there_and_back(const struct setting *s)
{
    struct setting back = *s;
    struct kept k = cut(s);
    back.sealing = !s->sealing;
    memcpy(back.block, k.state, s->block_len);
    if (back.sealing && back.key_len < FOX_LEAST_SEAL_KEY) {
        hold_refused(&back, FOX_REFUSED_SHORT_KEY);
        return;
    }
    k = cut(&back);
    const struct part_call c = call_on(&back, &k, k.done);
    case_of(&c, memcmp(k.state, s->block, s->block_len) == 0, "this comes back, and not the block that went in");
}

void cuts(void)
{
    enum { TIMES = 250 };
    group_begin("cuts by chance into several parts, some of them of no rounds, there and back");
    for (uint32_t i = 0; i < TIMES; i++) {
        struct setting s = some_setting(i % 2, i % 4 < 2 ? FOX64 : FOX128);
        s.rounds = FOX_LEAST_ROUNDS + (uint32_t)below(below(20) == 0 ? 244 : 30);
        there_and_back(&s);
    }
    group_end();
}
