/* A session of the library beside the plain machine of the second implementation. Every call here is made by both, and
 * what a call is lent lies beside pages that may not be touched, at one end of a room or the other by chance. */
#ifndef SESSION_PAIR_H
#define SESSION_PAIR_H

#include "session.h"
#include "session_call.h"

/* The kinds of sessions: of FOX64 and of FOX128 for sealing, and of both for opening. */
enum { KINDS = 4, SETTING_ROOM = 64, INPUT_ROOM = FOX_MOST_DATA + 64 };

struct pair {
    uint64_t words[FOX_SESSION_WORDS];
    struct second_session plain;
};

/* What a session is started with. Key and counter have more bytes behind them than their lengths say. */
struct setting {
    int opening;
    uint32_t cipher, rounds;
    uint8_t key[SETTING_ROOM], counter[SETTING_ROOM];
    size_t key_len, counter_len;
};

/* One of a kind that is served, with few rounds and a key of any length that the kind takes. */
struct setting some_setting(size_t kind);

/* Faults are chosen by the bits of a number, in the order in which a call looks for them; for a short key, which is this
 * bit, it looks only where it seals. */
enum { SHORT = 1 << 3 };

/* The number of the first of the chosen faults, from the list of all; FOX_SERVED where there is none. */
uint32_t first_fault(const uint32_t *numbers, unsigned chosen, int opening);

/* Bytes by chance, so many of them; up to INPUT_ROOM. */
const uint8_t *some_input(size_t len);

/* The bytes that are left of the run, which may be none. */
uint64_t left_of(const struct pair *p);

/* Cases of calls, which show a call that went wrong. Each holds the library's answer to the plain machine's, the output
 * byte by byte, and all else to what it was; with a refusal the words too, and those of a start to zeros. Where the
 * call is served, a copy of the words is asked for the next bytes, which shows where the session stands. An advance is
 * held to every engine's run of the same direction, with the position as offset, too, where the engine is fast enough.
 * Each answers with the plain machine's answer. */
uint32_t try_start(struct pair *p, const struct setting *s);
uint32_t try_advance(struct pair *p, size_t input_len, size_t out_len);
uint32_t try_move(struct pair *p, uint64_t position);

/* A case: two sessions have the same words. */
void same_words(const struct pair *a, const struct pair *b, const char *what);

/* A case besides: the answer is the one that the test says. */
void hold_start(struct pair *p, const struct setting *s, uint32_t answer);
void hold_advance(struct pair *p, size_t input_len, size_t out_len, uint32_t answer);
void hold_move(struct pair *p, uint64_t position, uint32_t answer);

/* The call with everything laid in rooms, and the words taken out of theirs after it. Answers FAULTED where it faults.
 * `kept` is set to what is wrong with all that was lent for reading, and with what is beside the words and the output,
 * of which the bytes at `out` are to be there, unless it is NULL; NULL where that is as it should be. */
uint32_t laid_call(enum session_verb verb, const struct session_call *c, const uint8_t *out, const char **kept);

/* Makes the call as it is; where it faults the answer is FAULTED. */
uint32_t caught_call(enum session_verb verb, const struct session_call *c);

#endif
