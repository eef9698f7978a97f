/* A card that is interrupted: of a block only its state, register and number of rounds are kept, and other work comes
 * between its parts, on the same stack. */
#include "call.h"
#include "chance.h"
#include "groups.h"
#include "painted.h"
#include "tally.h"
#include "try.h"

#include <stdio.h>
#include <string.h>

/* Another block under another key, opened, and sealed again, whole. */
static struct {
    struct setting setting;
    uint8_t opened[FOX128_BLOCK], sealed[FOX128_BLOCK];
    uint32_t opening, sealing;
} other;

static void other_block(void)
{
    const struct setting *s = &other.setting;
    const size_t b = s->block_len;
    other.opening = fox_card_open_block(s->cipher, s->rounds, s->key, s->key_len, s->block, b, other.opened, b);
    other.sealing = fox_card_seal_block(s->cipher, s->rounds, s->key, s->key_len, other.opened, b, other.sealed, b);
}

/* It comes back, but for a key that is too short to seal with, which is refused. */
static int other_right(void)
{
    const struct setting *s = &other.setting;
    const uint32_t right = key_answer(SEAL, s->key_len);
    return other.opening == FOX_SERVED && other.sealing == right &&
           (right != FOX_SERVED || memcmp(other.sealed, s->block, s->block_len) == 0);
}

/* Any other, or one that has the same cipher, rounds and length of key as the block that is interrupted. */
static struct setting another(const struct setting *s)
{
    struct setting t = some_setting((uint32_t)below(2), some_cipher());
    if (below(2) == 0) {
        t = *s;
        fill(t.key, sizeof t.key);
        fill(t.block, sizeof t.block);
    }
    return t;
}

/* Whole blocks, and a block that is stopped itself. */
static void other_work(const struct setting *interrupted_one)
{
    for (size_t times = 1 + below(3); times > 0; times--) {
        other.setting = another(interrupted_one);
        on_painted_stack(other_block);
        if (case_wrong(other_right()))
            printf("a block between two parts of another does not come back, or is not refused as its key has it\n");
    }
    const struct setting s = another(interrupted_one);
    struct kept k = begun(&s);
    go_on(&s, &k, 1 + (uint32_t)below(s.rounds));
}

static void with_interruptions(const struct setting *s)
{
    const struct second_stops *stops = stops_of(s);
    struct kept k = begun(s);
    while (k.done < s->rounds) {
        go_on(s, &k, k.done + 1 + (uint32_t)below(6));
        same_stop(s, &k, stops, k.done);
        other_work(s);
    }
}

/* Two blocks, each of which interrupts the other. */
static void in_turns(const struct setting *s, const struct setting *t)
{
    struct kept k = begun(s), l = begun(t);
    while (k.done < s->rounds || l.done < t->rounds) {
        go_on(s, &k, k.done + (uint32_t)below(4));
        go_on(t, &l, l.done + (uint32_t)below(4));
    }
    same_stop(s, &k, stops_of(s), s->rounds);
    same_stop(t, &l, stops_of(t), t->rounds);
}

/* The last two are one block both ways, but for a key that is too short to seal with, by which both are opened. */
void interrupted(void)
{
    enum { TIMES = 60 };
    group_begin("other blocks under other keys between the parts, and two blocks in turns, on a painted stack");
    for (uint32_t i = 0; i < TIMES; i++) {
        const struct setting s = some_setting(i % 2, i % 4 < 2 ? FOX64 : FOX128);
        struct setting t = another(&s);
        with_interruptions(&s);
        in_turns(&s, &t);
        t = s;
        t.sealing = !s.sealing && key_answer(SEAL, s.key_len) == FOX_SERVED;
        in_turns(&s, &t);
    }
    group_end();
}
