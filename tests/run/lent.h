/* What the calls here are lent, by which one sees that a call has changed nothing else. */
#ifndef RUN_LENT_H
#define RUN_LENT_H

#include "call.h"
#include "fox.h"

enum { CASE_LEN = 20, EDGE = 64 };

struct lent {
    uint8_t key[64], counter[32], data[FOX_MOST_DATA + EDGE], out[FOX_MOST_DATA + EDGE];
};

/* As it is, and as it was before the first call. */
extern struct lent lent, before;

/* Two stretches of memory longer than 32 bits can count, for lengths that come out small when cut to 32 bits; NULL
 * where there is no room. */
extern uint8_t *vast_input, *vast_output;

/* Called once, before all else. */
void prepare_lent(void);

/* A call on CASE_LEN bytes that is served, sealing and opening. */
struct call served_call(uint32_t cipher);

/* Two cases: the call is refused by this number, and has changed nothing. */
void check_refused(const struct engine *engine, enum verb verb, const struct call *c, uint32_t number);

/* One case: a served call has changed nothing but its output, which is put back here. */
void check_rest(const struct engine *engine, enum verb verb, const struct call *c);

#endif
