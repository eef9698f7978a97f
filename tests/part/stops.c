/* A block in two calls, for every round to stop at. */
#include "chance.h"
#include "count.h"
#include "groups.h"
#include "tally.h"
#include "try.h"

/* Stopped there, and gone on with up to the last round, as the number of rounds says or a larger number. */
static void stop_at(const struct setting *s, const struct second_stops *stops, uint32_t at)
{
    const uint32_t ends[] = {s->rounds, s->rounds + 1, UINT32_MAX};
    struct kept k = begun(s);
    go_on(s, &k, at);
    same_stop(s, &k, stops, at);
    go_on(s, &k, ONE_OF(ends));
    same_stop(s, &k, stops, s->rounds);
}

static void every_stop(const struct setting *s)
{
    const struct second_stops *stops = stops_of(s);
    for (uint32_t at = 0; at <= s->rounds + 2; at++)
        stop_at(s, stops, at);
}

/* Each number of rounds comes with either cipher, in sealing and in opening, since there are fewer of them than turns. */
void two_calls(void)
{
    enum { MOST = 40, TURNS = MOST - FOX_LEAST_ROUNDS + 1 };
    _Static_assert(KEY_TURNS - TURNS >= 0, "every number of rounds has its turn");
    group_begin("a block in two calls, every round to stop at: all lengths of keys, 12 to 40 rounds by turns");
    for (uint32_t way = 0; way < 4; way++) {
        const uint32_t first = (uint32_t)below(TURNS);
        for (uint32_t turn = 0; turn < KEY_TURNS; turn++) {
            struct setting s = some_setting(way % 2, way < 2 ? FOX64 : FOX128);
            s.key_len = key_len_by(s.sealing, turn);
            s.rounds = FOX_LEAST_ROUNDS + (first + turn) % TURNS;
            every_stop(&s);
        }
    }
    group_end();
}

/* A key for each of the three schedules. */
void two_calls_of_most_rounds(void)
{
    static const struct {
        uint32_t cipher;
        size_t key_len;
    } keys[] = {{FOX64, 16}, {FOX64, 17}, {FOX128, FOX_MOST_KEY}};
    group_begin("a block of 255 rounds in two calls, every round to stop at");
    for (size_t i = 0; i < COUNT(keys); i++)
        for (uint32_t sealing = 0; sealing <= 1; sealing++) {
            struct setting s = some_setting(sealing, keys[i].cipher);
            s.rounds = FOX_MOST_ROUNDS, s.key_len = keys[i].key_len;
            every_stop(&s);
        }
    group_end();
}
