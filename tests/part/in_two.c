/* A block in two parts by one call, with the state between them in a room of the caller's. */
#include "answers.h"
#include "call.h"
#include "chance.h"
#include "count.h"
#include "faults.h"
#include "groups.h"
#include "hex.h"
#include "painted.h"
#include "rooms.h"
#include "tally.h"
#include "try.h"

#include <inttypes.h>
#include <stdio.h>
#include <string.h>

/* The probe library's call. */
uint32_t fox_probe_in_two(uint32_t sealing, uint32_t cipher, uint32_t rounds, const uint8_t *key, size_t key_len,
                          uint32_t stop, const uint8_t *block, size_t block_len, uint8_t *held, size_t held_len,
                          uint8_t *out, size_t out_len);

enum { KEY, BLOCK, HELD, OUTPUT };

static struct room rooms[] = {
    [KEY] = {"key", NULL}, [BLOCK] = {"block", NULL}, [HELD] = {"state", NULL}, [OUTPUT] = {"output", NULL}};

/* A setting, where to stop, and how long the rooms for state and output are. */
struct two {
    const struct setting *s;
    uint32_t stop;
    size_t held_len, out_len;
};

/* The call laid in the rooms, with its answer. */
static struct laid {
    const struct two *two;
    const uint8_t *key, *block;
    uint8_t *held, *out;
    uint32_t answer;
} laid;

static void make(void *given)
{
    struct laid *l = given;
    const struct setting *s = l->two->s;
    l->answer = fox_probe_in_two(s->sealing, s->cipher, s->rounds, l->key, s->key_len, l->two->stop, l->block, s->block_len,
                                 l->held, l->two->held_len, l->out, l->two->out_len);
}

static void make_on_stack(void)
{
    if (work_faults(make, &laid))
        laid.answer = UINT32_MAX;
}

/* By the second implementation: the answer, and what room and output have after it. The block is turned at once. */
static uint32_t right_two(const struct two *t, uint8_t *held, uint8_t *out)
{
    const struct setting *s = t->s;
    uint32_t reg, refusal = second_part(s->sealing == 0, s->cipher, s->rounds, s->key, s->key_len, 0, t->stop, 0, s->block,
                                        s->block_len, held, t->held_len, &reg);
    return refusal != FOX_SERVED ? refusal
                                 : second_part(s->sealing == 0, s->cipher, s->rounds, s->key, s->key_len, 0, s->rounds, 0,
                                               s->block, s->block_len, out, t->out_len, &reg);
}

/* What is wrong with the call, in words; NULL where nothing is. */
static const char *wrong_two(const struct two *t, uint32_t right, const uint8_t *held, const uint8_t *out, int at_end)
{
    static char words[64];
    on_painted_stack(make_on_stack);
    if (laid.answer == UINT32_MAX)
        snprintf(words, sizeof words, "faults, beside %s", room_beside(rooms, COUNT(rooms), fault_place()));
    else if (laid.answer != right)
        snprintf(words, sizeof words, "answers %" PRIu32 ", and not %" PRIu32, laid.answer, right);
    else if (!room_holds(&rooms[OUTPUT], out, t->out_len, at_end) || !room_holds(&rooms[HELD], held, t->held_len, at_end))
        return "puts out other bytes, keeps another state, or writes beside them";
    else if (!room_holds(&rooms[KEY], t->s->key, t->s->key_len, at_end) ||
             !room_holds(&rooms[BLOCK], t->s->block, t->s->block_len, at_end))
        return "changes what was lent for reading, or a byte beside it";
    else
        return NULL;
    return words;
}

static void show_two(const struct two *t, const char *wrong)
{
    const struct setting *s = t->s;
    printf("sealing %" PRIu32 ", cipher %" PRIu32 ", rounds %" PRIu32 ", stopped after %" PRIu32, s->sealing, s->cipher,
           s->rounds, t->stop);
    hex_show("key", s->key, s->key_len, SETTING_ROOM);
    hex_show("block", s->block, s->block_len, SETTING_ROOM);
    printf(", room of %zu bytes, output of %zu: %s\n", t->held_len, t->out_len, wrong);
}

/* A case: the refusal that is right is the one that the test says, and the card has it, the state and the output. */
static void hold_two(const struct two *t, uint32_t refusal)
{
    uint8_t held[SETTING_ROOM], out[SETTING_ROOM];
    const int at_end = (int)below(2);
    const char *wrong = "the second implementation answers otherwise than the test says";
    fill(held, sizeof held);
    fill(out, sizeof out);
    laid = (struct laid){t, room_lay(&rooms[KEY], t->s->key, t->s->key_len, at_end),
                         room_lay(&rooms[BLOCK], t->s->block, t->s->block_len, at_end),
                         room_lay(&rooms[HELD], held, t->held_len, at_end),
                         room_lay(&rooms[OUTPUT], out, t->out_len, at_end), 0};
    const uint32_t right = right_two(t, held, out);
    count_answer(right);
    if (right == refusal)
        wrong = wrong_two(t, right, held, out, at_end);
    if (case_wrong(wrong == NULL))
        show_two(t, wrong);
}

/* Every round to stop at, and numbers that are far past the last. */
static void stop_anywhere(const struct setting *s)
{
    static const uint32_t far[] = {256 + 1, 65536 + 3, (1u << 31) + 1, UINT32_MAX};
    for (uint32_t stop = 0; stop <= s->rounds + 2; stop++)
        hold_two(&(struct two){s, stop, s->block_len, s->block_len}, FOX_SERVED);
    for (size_t i = 0; i < COUNT(far); i++)
        hold_two(&(struct two){s, far[i], s->block_len, s->block_len}, FOX_SERVED);
}

void in_two(void)
{
    group_begin("a block in two parts by one call, every round to stop at: as at once, and the state in between");
    for (uint32_t way = 0; way < 4; way++)
        for (uint32_t turn = 0; turn < KEY_TURNS; turn++) {
            struct setting s = some_setting(way % 2, way < 2 ? FOX64 : FOX128);
            s.key_len = key_len_by(s.sealing, turn);
            s.rounds = turn == 17 ? FOX_MOST_ROUNDS : s.rounds;
            stop_anywhere(&s);
        }
    group_end();
}

/* Cipher, rounds, key and block are looked at before the room for the state, and that before the output. */
static void spoilt(const struct setting *s, uint32_t refusal)
{
    const size_t lens[] = {0, s->block_len - 1, s->block_len, s->block_len + 1, SETTING_ROOM};
    const uint32_t stop = (uint32_t)below(s->rounds % 64 + 2);
    for (size_t i = 0; i < COUNT(lens); i++)
        for (size_t j = 0; j < COUNT(lens); j++) {
            const int right = lens[i] == s->block_len && lens[j] == s->block_len;
            const uint32_t last = right ? FOX_SERVED : FOX_REFUSED_OUTPUT;
            hold_two(&(struct two){s, stop, lens[i], lens[j]}, refusal == FOX_SERVED ? last : refusal);
        }
}

/* A setting whose key is answered so, by itself and with one more fault. */
static void spoilt_in_each(const struct setting *s, uint32_t key_answered)
{
    struct setting cipher = *s, rounds = *s, key = *s, block = *s;
    cipher.cipher++, rounds.rounds = FOX_LEAST_ROUNDS - 1, key.key_len = FOX_MOST_KEY + 1, block.block_len++;
    spoilt(s, key_answered);
    spoilt(&cipher, FOX_REFUSED_CIPHER);
    spoilt(&rounds, FOX_REFUSED_ROUNDS);
    spoilt(&key, FOX_REFUSED_KEY);
    spoilt(&block, key_answered != FOX_SERVED ? key_answered : FOX_REFUSED_BLOCK);
}

void in_two_refused(void)
{
    static const size_t short_keys[] = {0, 1, FOX_LEAST_SEAL_KEY - 1};
    group_begin("a block in two parts by one call, refused: the first fault is answered, and what is not done stays");
    for (uint32_t way = 0; way < 4; way++) {
        struct setting s = some_setting(way % 2, way < 2 ? FOX64 : FOX128);
        spoilt_in_each(&s, FOX_SERVED);
        for (size_t i = 0; i < COUNT(short_keys); i++) {
            s.key_len = short_keys[i];
            spoilt_in_each(&s, s.sealing != 0 ? FOX_REFUSED_SHORT_KEY : FOX_SERVED);
        }
    }
    group_end();
}
