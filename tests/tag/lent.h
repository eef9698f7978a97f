/* What the calls here are lent, by which one sees that a call has changed nothing else, and addresses with no memory
 * behind them. */
#ifndef TAG_LENT_H
#define TAG_LENT_H

#include "call.h"
#include "fox.h"

enum { CASE_LEN = 20, ROOM = 64 };

struct lent {
    uint8_t key[ROOM], message[ROOM], stored[ROOM], tag[ROOM];
};

/* As it is, and as it was before the first call. */
extern struct lent lent, before;

/* As many addresses as the longest message has bytes, and some more, none of which may be touched. */
extern const uint8_t *nowhere;

/* Called once, before all else. */
void prepare_lent(void);

/* A call over CASE_LEN bytes, with a key of any length, that is served where the tag is made, and where that at `stored`,
 * which the engine makes here, is tested. */
struct call served_call(const struct engine *engine, uint32_t cipher);

/* Two cases: the call answers with this number, a refusal, and has changed nothing. */
void check_refused(const struct engine *engine, enum verb verb, const struct call *c, uint32_t number);

#endif
