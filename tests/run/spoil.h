/* Wrong calls: each spoil makes a call that would be served into one that is refused by the spoil's number; but a short
 * key does so to sealing alone (answer_by of check.h). */
#ifndef RUN_SPOIL_H
#define RUN_SPOIL_H

#include "call.h"

/* A vast spoil lends more than 32 bits can count. */
struct spoil {
    uint32_t number;
    void (*change)(struct call *, uint64_t);
    uint64_t value;
    int vast;
};

/* In the order in which a run looks for what it refuses: of two with different numbers the earlier one is answered. */
extern const struct spoil spoils[];
extern const size_t spoil_count;

/* Answers with 0 for a vast one that there is no room for. */
int spoil_call(struct call *c, const struct spoil *s);

/* The numbers of the spoils, each once and in their order. Answers with how many there are. */
enum { MOST_NUMBERS = 16 };
size_t spoil_numbers(uint32_t numbers[MOST_NUMBERS]);

#endif
