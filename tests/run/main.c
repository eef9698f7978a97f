/* Host tests of the library's runs.
 * Usage: run VECTORS [SEED]. Last line: 'N passed, M failed', where each group of cases counts as one. */
#include "chance.h"
#include "faults.h"
#include "fox.h"
#include "lent.h"
#include "run.h"
#include "tally.h"

#include <inttypes.h>
#include <stdio.h>

int main(int count, char **words)
{
    if (count < 2 || count > 3) {
        fprintf(stderr, "usage: run VECTORS [SEED]\n");
        return 2;
    }
    tally_begin("run");
    printf("run: seed %" PRIu64 "\n", chance_begin(count > 2 ? words[2] : NULL));
    catch_faults();
    prepare_lent();
    for (size_t i = 0; i < ENGINES; i++) {
        rows(&engines[i], words[1]);
        refusals(&engines[i]);
        counters(&engines[i]);
        guarded(&engines[i]);
    }
    limits();
    random_cuts(FOX64);
    random_cuts(FOX128);
    return tally_end();
}
