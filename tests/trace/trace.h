/* Calls in groups, whose secrets differ and all else is the same, and what is seen of them: one instruction after the other,
 * and one access to data after the other. */
#ifndef TRACE_TRACE_H
#define TRACE_TRACE_H

#include "call.h"

/* What the calls of a group have in common. Of a test of a tag, whether the stored tags are wrong: its caller learns that, so
 * right and wrong ones are groups apart. */
struct group {
    enum verb verb;
    uint32_t cipher, rounds;
    size_t key_len;
    uint64_t offset;
    size_t data_len;
    int wrong;
};

/* Groups, and how many calls each of them has. A test of a tag stands behind the group that makes its tags. */
struct plan {
    const char *name;
    const struct group *groups;
    size_t count, calls;
};

/* `whole` has every case, `brief` few for each verb. NULL for another name. */
const struct plan *plan_of(const char *name);

/* Makes all calls of a plan, from the same place and with the same buffers. Says how many of them did not answer as they
 * should, or put out what another of their group has put out, so that their secrets did not differ. */
size_t make_calls(const struct engine *engine, const struct plan *plan);

/* A trace shows these where a call begins, where it has ended, where one went wrong, and behind the last. */
void mark_before(void);
void mark_after(void);
void mark_wrong(void);
void mark_end(void);

/* Engines that are no part of the library: `constant` has neither a branch nor an address by a secret byte; in `faulty`
 * sealing and opening a block and testing a tag branch by one, and runs and the making of a tag look one up. */
extern const struct engine constant, faulty;

/* An engine of the library, or one of these; NULL for another name. */
const struct engine *engine_of(const char *name);

/* What a trace has: where instructions stand, and where data is read and written. */
enum sort { INSTRUCTIONS, DATA, SORTS };

/* What is seen is handed over in order. `names` says what it is called of either sort, and is NULL for one that is not seen.
 * `kind` is I for an instruction, and for data L, S or M: read, written, or both. */
void compare_begin(const struct engine *engine, const struct plan *plan, const char *const names[SORTS]);
void saw(char kind, uint64_t address, unsigned size);

/* One figure for each verb. */
void compare_end(void);

/* Hands over what valgrind's tool lackey writes of the program, and what an emulator writes. */
void read_lackey(void);
void read_emulator(void);

/* Hands over the instructions of a child that makes the calls. Answers with 0 where no child can be stepped through. */
int can_step(void);
void step_through(const struct engine *engine, const struct plan *plan);

#endif
