/* Numbers that are larger than they need to be, or the other way about. */
#include "chance.h"
#include "count.h"
#include "groups.h"
#include "tally.h"
#include "try.h"

#include <string.h>

/* A block that has come to some round between its first and its last, by the second implementation. */
static struct kept stopped(const struct setting *s)
{
    const struct second_stops *stops = stops_of(s);
    struct kept k = {.done = 1 + (uint32_t)below(s->rounds - 1)};
    k.reg = stops->reg[k.done];
    memcpy(k.state, stops->state[k.done], s->block_len);
    return k;
}

/* Goes on from what is kept, with another register. */
static struct kept gone_on(const struct setting *s, struct kept k, uint32_t until, uint32_t reg)
{
    k.reg = reg;
    go_on(s, &k, until);
    return k;
}

static void same_kept(const struct setting *s, const struct kept *found, const struct kept *right, const char *wrong)
{
    const struct part_call c = call_on(s, found, found->done);
    case_of(&c, found->reg == right->reg && memcmp(found->state, right->state, s->block_len) == 0, wrong);
}

/* Every number above the 24 bits, with some rounds, all that are left, or none. */
void high_registers(void)
{
    group_begin("registers with bits above the 24th: the same as without them");
    for (uint32_t i = 0; i < 4; i++) {
        const struct setting s = some_setting(i % 2, i < 2 ? FOX64 : FOX128);
        const struct kept k = stopped(&s);
        const uint32_t untils[] = {0, k.done, k.done + 1, k.done + 2, s.rounds, UINT32_MAX};
        for (uint32_t high = 0; high < 256; high++) {
            const uint32_t until = untils[high % COUNT(untils)];
            const struct kept found = gone_on(&s, k, until, high << 24 | k.reg);
            const struct kept right = gone_on(&s, k, until, k.reg);
            same_kept(&s, &found, &right, "bits above the 24th change what is handed back");
        }
    }
    group_end();
}

/* Nothing is done: the state as it came, and the register but for its bits above the 24th; before the first round it
 * follows, whatever came. */
static void nothing_done(const struct setting *s, const struct second_stops *stops, uint32_t from, uint32_t until)
{
    struct kept k = begun(s);
    k.done = from;
    const struct kept found = gone_on(s, k, until, k.reg);
    k.reg = from == 0 ? stops->reg[0] : k.reg & 0xFFFFFF;
    same_kept(s, &found, &k, "a part of no rounds changes something");
}

void no_rounds(void)
{
    group_begin("parts of no rounds: up to the same round, to an earlier one, and from past the last");
    for (uint32_t i = 0; i < 4; i++) {
        const struct setting s = some_setting(i % 2, i < 2 ? FOX64 : FOX128);
        const struct second_stops *stops = stops_of(&s);
        const uint32_t n = s.rounds;
        const uint32_t far[] = {n, n + 1, 255, 256, 257, 256 + n - 1, 511, 512, 65536, 65536 + 3, 1u << 24, 1u << 31,
                                (1u << 31) + 5, UINT32_MAX - 255, UINT32_MAX};
        for (uint32_t from = 0; from <= n + 1; from++)
            for (uint32_t until = 0; until <= from; until++)
                nothing_done(&s, stops, from, until);
        for (size_t j = 0; j < COUNT(far) * COUNT(far); j++)
            nothing_done(&s, stops, far[j / COUNT(far)], far[j % COUNT(far)]);
        for (size_t j = 0; j < COUNT(far); j++) {
            nothing_done(&s, stops, far[j], far[j] - 1);
            nothing_done(&s, stops, far[j], (uint32_t)below(n + 1));
        }
    }
    group_end();
}

/* Numbers past the last round that would be earlier ones, if only their lowest bits were looked at, are among these. */
void past_rounds(void)
{
    group_begin("parts up to a round past the last: the same as up to the last");
    for (uint32_t i = 0; i < 4; i++) {
        struct setting s = some_setting(i % 2, i < 2 ? FOX64 : FOX128);
        s.rounds = i % 3 == 0 ? FOX_MOST_ROUNDS : s.rounds;
        const struct second_stops *stops = stops_of(&s);
        for (uint32_t from = s.rounds < 40 ? 0 : s.rounds - 20; from < s.rounds; from++) {
            const uint32_t untils[] = {s.rounds, s.rounds + 1, 255, 256, 256 + from, 257 + from, 512, 65536 + from,
                                       (1u << 24) + from + 1, 1u << 31, (1u << 31) + from, UINT32_MAX};
            struct kept k = {.done = from, .reg = stops->reg[from]};
            memcpy(k.state, stops->state[from], s.block_len);
            for (size_t j = 0; j < COUNT(untils); j++) {
                const struct kept found = gone_on(&s, k, untils[j], k.reg);
                same_stop(&s, &found, stops, s.rounds);
            }
        }
    }
    group_end();
}

void sealing_numbers(void)
{
    static const uint32_t sealing[] = {1, 2, 3, 128, 255, 256, 65536, 1u << 24, 1u << 31, UINT32_MAX - 1, UINT32_MAX};
    group_begin("every number but 0 seals, and refuses a short key");
    for (size_t i = 0; i < 2 * COUNT(sealing); i++) {
        struct setting s = some_setting(1, i % 2 == 0 ? FOX64 : FOX128);
        const struct second_stops *stops = stops_of(&s);
        struct kept k = begun(&s);
        s.sealing = sealing[i / 2];
        for (int part = 0; part < 3; part++) {
            go_on(&s, &k, k.done + 7);
            same_stop(&s, &k, stops, k.done);
        }
        s.key_len = below(FOX_LEAST_SEAL_KEY);
        hold_refused(&s, FOX_REFUSED_SHORT_KEY);
    }
    group_end();
}

/* From any round to any other, with any state and register. */
void any_numbers(void)
{
    enum { TIMES = 2000 };
    group_begin("any state, register and rounds by chance");
    for (uint32_t i = 0; i < TIMES; i++) {
        const struct setting s = some_setting((uint32_t)below(2), some_cipher());
        const uint32_t near = (uint32_t)below(s.rounds + 2), froms[] = {0, 1, near, near, (uint32_t)any_number()};
        struct kept k = begun(&s);
        k.done = ONE_OF(froms);
        go_on(&s, &k, below(4) == 0 ? (uint32_t)any_number() : (uint32_t)below(s.rounds + 4));
    }
    group_end();
}
