/* Cases of calls, made by the card and by the second implementation. */
#include "try.h"
#include "answers.h"
#include "call.h"
#include "chance.h"
#include "count.h"
#include "faults.h"
#include "hex.h"
#include "painted.h"
#include "rooms.h"
#include "second.h"
#include "tally.h"

#include <inttypes.h>
#include <stdio.h>
#include <string.h>

enum { KEY, BLOCK, OUTPUT };

static struct room rooms[] = {[KEY] = {"key", NULL}, [BLOCK] = {"block", NULL}, [OUTPUT] = {"output", NULL}};

uint32_t some_cipher(void)
{
    return below(2) == 0 ? FOX64 : FOX128;
}

size_t key_len_by(uint32_t sealing, uint32_t turn)
{
    const size_t least = sealing != 0 ? FOX_LEAST_SEAL_KEY : 0;
    return least + turn % (FOX_MOST_KEY + 1 - least);
}

size_t some_key_len(uint32_t sealing)
{
    return key_len_by(sealing, (uint32_t)any_number());
}

struct setting some_setting(uint32_t sealing, uint32_t cipher)
{
    struct setting s = {.sealing = sealing, .cipher = cipher, .rounds = FOX_LEAST_ROUNDS + (uint32_t)below(6)};
    s.key_len = some_key_len(sealing);
    s.block_len = block_of(cipher);
    fill(s.key, sizeof s.key);
    fill(s.block, sizeof s.block);
    return s;
}

struct kept begun(const struct setting *s)
{
    struct kept k = {.reg = (uint32_t)any_number(), .done = 0};
    memcpy(k.state, s->block, s->block_len);
    return k;
}

struct part_call call_on(const struct setting *s, const struct kept *k, uint32_t until)
{
    return (struct part_call){s->sealing, s->cipher, s->rounds, s->key, s->key_len, k->done, until, k->reg,
                              k->state, s->block_len, NULL, s->block_len};
}

/* The call that is made on the painted stack, and its answer. */
static struct made {
    const struct part_call *call;
    uint64_t answer;
} made;

static void make(void *given)
{
    struct made *m = given;
    const struct part_call *c = m->call;
    m->answer = fox_probe_part(c->sealing, c->cipher, c->rounds, c->key, c->key_len, c->from, c->until, c->reg, c->block,
                               c->block_len, c->out, c->out_len);
}

static void make_on_stack(void)
{
    if (work_faults(make, &made))
        made.answer = NO_ANSWER;
}

uint64_t caught_part(const struct part_call *c)
{
    made.call = c;
    on_painted_stack(make_on_stack);
    return made.answer;
}

uint64_t right_part(const struct part_call *c, uint8_t *out)
{
    uint32_t reg, refusal = second_part(c->sealing == 0, c->cipher, c->rounds, c->key, c->key_len, c->from, c->until,
                                        c->reg, c->block, c->block_len, out, c->out_len, &reg);
    return (uint64_t)refusal << 32 | reg;
}

static void show_part(const struct part_call *c)
{
    printf("sealing %" PRIu32 ", cipher %" PRIu32 ", rounds %" PRIu32 ", from %" PRIu32 " until %" PRIu32
           ", register %08" PRIX32, c->sealing, c->cipher, c->rounds, c->from, c->until, c->reg);
    hex_show("key", c->key, c->key_len, SETTING_ROOM);
    hex_show("block", c->block, c->block_len, SETTING_ROOM);
    printf(", output of %zu bytes: ", c->out_len);
}

void case_of(const struct part_call *c, int right, const char *wrong)
{
    if (!case_wrong(right))
        return;
    show_part(c);
    printf("%s\n", wrong);
}

/* What is wrong with the call, in words; NULL where nothing is. Its answer is put at `found`, and its output copied. */
static const char *wrong_part(const struct part_call *c, uint64_t right, const uint8_t *answer, uint64_t *found)
{
    static char words[128];
    struct part_call laid = *c;
    int at_end = (int)below(2);
    laid.key = room_lay(&rooms[KEY], c->key, c->key_len, at_end);
    laid.block = room_lay(&rooms[BLOCK], c->block, c->block_len, at_end);
    laid.out = room_lay(&rooms[OUTPUT], c->out, c->out_len, at_end);
    *found = caught_part(&laid);
    memcpy(c->out, laid.out, c->out_len);
    if (*found == NO_ANSWER)
        snprintf(words, sizeof words, "faults, beside %s", room_beside(rooms, COUNT(rooms), fault_place()));
    else if (*found != right)
        snprintf(words, sizeof words, "answers %" PRIu64 " with the register %08" PRIX32 ", and not %" PRIu64 " with %08"
                 PRIX32, *found >> 32, (uint32_t)*found, right >> 32, (uint32_t)right);
    else if (!room_holds(&rooms[OUTPUT], answer, c->out_len, at_end))
        return "puts out other bytes, or writes beside them";
    else if (!room_holds(&rooms[KEY], c->key, c->key_len, at_end) ||
             !room_holds(&rooms[BLOCK], c->block, c->block_len, at_end))
        return "changes what was lent for reading, or a byte beside it";
    else
        return NULL;
    return words;
}

/* Before the call every byte that is to be written is another one than it has to become. */
uint64_t hold_part(const struct part_call *c, uint32_t refusal)
{
    uint8_t answer[SETTING_ROOM], out[SETTING_ROOM];
    struct part_call made_call = *c;
    uint64_t found, right = right_part(c, answer);
    int served = right >> 32 == FOX_SERVED;
    for (size_t i = 0; i < c->out_len; i++) {
        out[i] = served ? (uint8_t)~answer[i] : (uint8_t)(i * 29 + 5);
        answer[i] = served ? answer[i] : out[i];
    }
    made_call.out = out;
    count_answer((uint32_t)(right >> 32));
    const char *wrong = wrong_part(&made_call, right, answer, &found);
    if (right >> 32 != refusal || (!served && (uint32_t)right != 0))
        wrong = "the second implementation answers otherwise than the test says";
    case_of(c, wrong == NULL, wrong);
    memcpy(c->out, out, c->out_len);
    return found;
}

void go_on(const struct setting *s, struct kept *k, uint32_t until)
{
    uint8_t out[FOX128_BLOCK];
    struct part_call c = call_on(s, k, until);
    c.out = out;
    k->reg = (uint32_t)hold_part(&c, FOX_SERVED);
    memcpy(k->state, out, s->block_len);
    k->done = until > k->done ? until : k->done;
}

void hold_refused(const struct setting *s, uint32_t refusal)
{
    uint8_t out[FOX128_BLOCK];
    const struct kept k = begun(s);
    struct part_call c = call_on(s, &k, s->rounds);
    c.out = out;
    hold_part(&c, refusal);
}

void same_stop(const struct setting *s, const struct kept *k, const struct second_stops *stops, uint32_t done)
{
    const uint32_t n = done < s->rounds ? done : s->rounds;
    const struct part_call c = call_on(s, k, k->done);
    case_of(&c, k->reg == stops->reg[n] && memcmp(k->state, stops->state[n], s->block_len) == 0,
            "this is kept, and not the state and register that belong there");
}

const struct second_stops *stops_of(const struct setting *s)
{
    static struct second_stops stops;
    const struct kept k = begun(s);
    struct part_call c = call_on(s, &k, s->rounds);
    uint8_t out[FOX128_BLOCK];
    block_call *whole = s->sealing != 0 ? fox_card_seal_block : fox_card_open_block;
    uint32_t refusal = whole(s->cipher, s->rounds, s->key, s->key_len, s->block, s->block_len, out, s->block_len);
    second_stops(&stops, s->sealing == 0, s->cipher, s->rounds, s->key, s->key_len, s->block);
    case_of(&c, refusal == FOX_SERVED && memcmp(out, stops.state[s->rounds], s->block_len) == 0,
            "the card's whole block is another one than the second implementation's");
    return &stops;
}
