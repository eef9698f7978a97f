/* Part of a block's rounds by the card, beside the second implementation. A case here is a call that both make. The card's
 * has a stack that was painted just before, and all that it is lent lies beside pages that may not be touched, at one end of
 * a room or the other by chance. */
#ifndef PART_TRY_H
#define PART_TRY_H

#include "fox.h"
#include "part.h"

/* The probe library's call: refusal times 2^32, plus the register. It seals where `sealing` is any number but 0. */
uint64_t fox_probe_part(uint32_t sealing, uint32_t cipher, uint32_t rounds, const uint8_t *key, size_t key_len,
                        uint32_t from, uint32_t until, uint32_t reg, const uint8_t *block, size_t block_len,
                        uint8_t *out, size_t out_len);

enum { SETTING_ROOM = 64 };

/* A block, whether it is sealed or opened, and by what. Key and block have more bytes behind them than their lengths say. */
struct setting {
    uint32_t sealing, cipher, rounds;
    uint8_t key[SETTING_ROOM], block[SETTING_ROOM];
    size_t key_len, block_len;
};

uint32_t some_cipher(void);

/* A length of key that is served, 0 to 32 bytes in opening and 16 to 32 in sealing: by turns, so that each of them has come
 * after KEY_TURNS, and by chance. */
enum { KEY_TURNS = FOX_MOST_KEY + 1 };
size_t key_len_by(uint32_t sealing, uint32_t turn);
size_t some_key_len(uint32_t sealing);

/* One that is served, with few rounds and a key of any such length. */
struct setting some_setting(uint32_t sealing, uint32_t cipher);

/* All that is kept of a block that was stopped, besides what it is sealed or opened by. */
struct kept {
    uint8_t state[FOX128_BLOCK];
    uint32_t reg, done;
};

/* Before the first round: the block itself, and any register. */
struct kept begun(const struct setting *s);

/* The part that goes on from there; its output is to be set. */
struct part_call {
    uint32_t sealing, cipher, rounds;
    const uint8_t *key;
    size_t key_len;
    uint32_t from, until, reg;
    const uint8_t *block;
    size_t block_len;
    uint8_t *out;
    size_t out_len;
};
struct part_call call_on(const struct setting *s, const struct kept *k, uint32_t until);

/* What is right, by the second implementation: the answer as the probe library has it, and the bytes at `out` where the
 * call is served. */
uint64_t right_part(const struct part_call *c, uint8_t *out);

/* A case: the refusal that is right is the one that the test says, and the card has it, the register, which is 0 with a
 * refusal, and the output byte by byte; all else is as it was. What the card has put out is copied to the call's own output.
 * Answers with the card's answer, which is NO_ANSWER where it faulted. */
#define NO_ANSWER UINT64_MAX
uint64_t hold_part(const struct part_call *c, uint32_t refusal);

/* Makes the call as it is, on a painted stack; where it faults the answer is NO_ANSWER. */
uint64_t caught_part(const struct part_call *c);

/* A case: whether something holds of the call, with words for what is wrong where it does not. */
void case_of(const struct part_call *c, int right, const char *wrong);

/* Goes on with a block up to a round, as a case, and keeps what the card has handed back. */
void go_on(const struct setting *s, struct kept *k, uint32_t until);

/* A case: a call on all rounds of a block is refused so. */
void hold_refused(const struct setting *s, uint32_t refusal);

/* A case: what is kept is right after so many rounds, or as many as the block has where that is fewer. */
void same_stop(const struct setting *s, const struct kept *k, const struct second_stops *stops, uint32_t done);

/* The setting's stops by the second implementation, and as a case that its last state is the card's whole block. */
const struct second_stops *stops_of(const struct setting *s);

#endif
