/* Host tests of the library's tags.
 * Usage: tag VECTORS [SEED]. Last line: 'N passed, M failed', where each group of cases counts as one. */
#include "chance.h"
#include "faults.h"
#include "lent.h"
#include "tag.h"
#include "tally.h"

#include <inttypes.h>
#include <stdio.h>

int main(int count, char **words)
{
    if (count < 2 || count > 3) {
        fprintf(stderr, "usage: tag VECTORS [SEED]\n");
        return 2;
    }
    tally_begin("tag");
    printf("tag: seed %" PRIu64 "\n", chance_begin(count > 2 ? words[2] : NULL));
    catch_faults();
    prepare_lent();
    for (size_t i = 0; i < ENGINES; i++) {
        rows(&engines[i], words[1]);
        refusals(&engines[i]);
        limits(&engines[i]);
        comparison(&engines[i]);
        long_messages(&engines[i]);
    }
    return tally_end();
}
