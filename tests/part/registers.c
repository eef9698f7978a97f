/* The register that a part hands back: a step block on for each round in sealing, and a step block back in opening. Here it
 * is a number that is doubled and halved modulo 100001B. */
#include "chance.h"
#include "groups.h"
#include "tally.h"
#include "try.h"

#define MODULUS 0x100001Bu

/* Steps in a step block: one for every three bytes of ek, or what is left of them. */
static int steps_of(const struct setting *s)
{
    return s->cipher == FOX64 && s->key_len <= 16 ? 6 : 11;
}

static uint32_t next(const struct setting *s, uint32_t reg)
{
    for (int i = 0; i < steps_of(s); i++) {
        reg <<= 1;
        reg ^= reg >> 24 != 0 ? MODULUS : 0;
    }
    return reg;
}

static uint32_t before(const struct setting *s, uint32_t reg)
{
    for (int i = 0; i < steps_of(s); i++) {
        reg ^= (reg & 1) != 0 ? MODULUS : 0;
        reg >>= 1;
    }
    return reg;
}

static uint32_t seed(const struct setting *s)
{
    return 0x6A0000u | s->rounds << 8 | (~s->rounds & 0xFF);
}

/* The register that one round hands back. */
static uint32_t after_round(const struct setting *s, uint32_t sealing, uint32_t from, uint32_t reg)
{
    struct setting way = *s;
    struct kept k = begun(s);
    way.sealing = sealing, k.reg = reg, k.done = from;
    go_on(&way, &k, from + 1);
    return k.reg;
}

static void same_register(const struct setting *s, uint32_t from, uint32_t found, uint32_t right, const char *wrong)
{
    const struct kept k = {.reg = right, .done = from};
    const struct part_call c = call_on(s, &k, from + 1);
    case_of(&c, found == right, wrong);
}

/* All rounds of a block one by one: where the register begins, each step, and where it ends, past the last round. */
static void each_step(const struct setting *s)
{
    struct kept k = begun(s);
    uint32_t last = seed(s);
    for (uint32_t i = 1; i < s->rounds; i++)
        last = next(s, last);
    go_on(s, &k, 0);
    same_register(s, 0, k.reg, s->sealing != 0 ? seed(s) : last, "the register begins elsewhere");
    for (uint32_t i = 0; i < s->rounds; i++) {
        const uint32_t right = s->sealing != 0 ? next(s, k.reg) : before(s, k.reg);
        go_on(s, &k, i + 1);
        same_register(s, i, k.reg, right, "the register is not a step block further");
    }
    same_register(s, s->rounds, k.reg, s->sealing != 0 ? next(s, last) : before(s, seed(s)),
                  "the register past the last round is elsewhere");
}

void steps_of_rounds(void)
{
    group_begin("the register of each round, from its beginning past its end: all lengths of keys, 12 to 17 rounds and 255");
    for (uint32_t i = 0; i < 4 * KEY_TURNS; i++) {
        struct setting s = some_setting(i % 2, i % 4 < 2 ? FOX64 : FOX128);
        s.key_len = key_len_by(s.sealing, i / 4);
        s.rounds = s.key_len == 16 || s.key_len == 17 ? FOX_MOST_ROUNDS : s.rounds;
        each_step(&s);
    }
    group_end();
}

/* What sealing hands back after a round goes into an opening's call of one round, and comes back; and the other way about.
 * Both go on past the ends of the block's own register. */
static void undone(const struct setting *s)
{
    uint32_t reg = before(s, before(s, seed(s)));
    for (uint32_t i = 0; i < s->rounds + 4; i++) {
        const uint32_t from = 1 + (uint32_t)below(s->rounds - 1), other = 1 + (uint32_t)below(s->rounds - 1);
        const uint32_t on = after_round(s, 1, from, reg);
        same_register(s, from, after_round(s, 0, other, on), reg, "opening does not take sealing's step back");
        const uint32_t back = after_round(s, 0, from, reg);
        same_register(s, from, after_round(s, 1, other, back), reg, "sealing does not take opening's step back");
        reg = on;
    }
    for (uint32_t i = 0; i < 3; i++)
        reg = before(s, reg);
    same_register(s, s->rounds, reg, stops_of(s)->reg[s->rounds - 1], "the register has come elsewhere");
}

void steps_undone(void)
{
    group_begin("the register of sealing given to opening, and the other way about, past both ends: keys of 16 to 32 bytes");
    for (size_t key_len = FOX_LEAST_SEAL_KEY; key_len <= FOX_MOST_KEY; key_len++)
        for (uint32_t cipher = FOX64; cipher <= FOX128; cipher += FOX64) {
            struct setting s = some_setting(1, cipher);
            s.key_len = key_len;
            undone(&s);
        }
    group_end();
}

/* Those with one bit, with all but one, and by chance: no round's value need be a block's own. */
void any_register(void)
{
    group_begin("one round from any register: each bit alone, all but one, and by chance");
    for (uint32_t i = 0; i < 4 * 80; i++) {
        const struct setting s = some_setting(i % 2, i % 4 < 2 ? FOX64 : FOX128);
        const uint32_t n = i / 4, from = 1 + (uint32_t)below(s.rounds - 1);
        uint32_t reg = n < 24 ? 1u << n : n < 48 ? 0xFFFFFFu ^ 1u << (n - 24) : (uint32_t)below(1u << 24);
        reg = n == 48 ? 0 : n == 49 ? 0xFFFFFFu : reg;
        same_register(&s, from, after_round(&s, s.sealing, from, reg), s.sealing != 0 ? next(&s, reg) : before(&s, reg),
                      "the register is not a step block further");
    }
    group_end();
}
