/* Host tests of parts of a block's rounds: a block that the card stops between two rounds, and goes on with.
 * Usage: part [SEED]. Last line: 'N passed, M failed', where each group of cases counts as one. */
#include "answers.h"
#include "chance.h"
#include "count.h"
#include "every_answer.h"
#include "faults.h"
#include "fox.h"
#include "groups.h"
#include "tally.h"

#include <inttypes.h>
#include <stdio.h>

static void every_answer(void)
{
    static const uint32_t answers[] = {FOX_SERVED,        FOX_REFUSED_CIPHER, FOX_REFUSED_ROUNDS,   FOX_REFUSED_KEY,
                                       FOX_REFUSED_BLOCK, FOX_REFUSED_OUTPUT, FOX_REFUSED_SHORT_KEY};
    each_answered(answers, COUNT(answers));
}

/* Without a seed the cases are the same each time. */
int main(int count, char **words)
{
    static void (*const groups[])(void) = {
        two_calls,       two_calls_of_most_rounds, in_two,         in_two_refused, single_rounds,
        cuts,            interrupted,              other_processes, steps_of_rounds, steps_undone,
        any_register,    high_registers,           no_rounds,      past_rounds,    sealing_numbers,
        any_numbers,     refusals,                 limits,         large_lengths,  every_answer,
    };
    if (count > 2) {
        fprintf(stderr, "usage: part [SEED]\n");
        return 2;
    }
    begin_processes();
    tally_begin("part");
    printf("part: seed %" PRIu64 "\n", chance_begin(count > 1 ? words[1] : "6"));
    catch_faults();
    for (size_t i = 0; i < COUNT(groups); i++)
        groups[i]();
    printf("part: %ld cases, ", tally_cases());
    show_answers();
    return tally_end();
}
