/* Host tests of the library's sessions.
 * Usage: session [SEED]. Last line: 'N passed, M failed', where each group of cases counts as one. */
#include "answers.h"
#include "chance.h"
#include "count.h"
#include "every_answer.h"
#include "faults.h"
#include "fox.h"
#include "groups.h"
#include "tally.h"

#include <inttypes.h>
#include <stdio.h>

static void every_answer(void)
{
    static const uint32_t answers[] = {FOX_SERVED,         FOX_REFUSED_CIPHER, FOX_REFUSED_ROUNDS,
                                       FOX_REFUSED_KEY,    FOX_REFUSED_BLOCK,  FOX_REFUSED_DATA,
                                       FOX_REFUSED_OUTPUT, FOX_REFUSED_END,    FOX_REFUSED_SHORT_KEY};
    each_answered(answers, COUNT(answers));
}

/* Without a seed the cases are the same each time. */
int main(int count, char **words)
{
    static void (*const groups[])(void) = {
        starts,    advances_at_edges, moves_at_edges, run_end,       carries,       long_advances,
        whole_run, copies,            refused_starts, refused_calls, large_lengths, lists,
        filled_words, filled_faults,  directions,     every_answer,
    };
    if (count > 2) {
        fprintf(stderr, "usage: session [SEED]\n");
        return 2;
    }
    tally_begin("session");
    printf("session: seed %" PRIu64 "\n", chance_begin(count > 1 ? words[1] : "5"));
    catch_faults();
    for (size_t i = 0; i < COUNT(groups); i++)
        groups[i]();
    printf("session: %ld cases, ", tally_cases());
    show_answers();
    return tally_end();
}
