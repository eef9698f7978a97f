/* Host tests of the library's run files.
 * Usage: file VECTORS OLD [SEED], where VECTORS is a folder, and OLD a list of old files. Last line: 'N passed, M
 * failed', where each group of cases counts as one. */
#include "answers.h"
#include "chance.h"
#include "count.h"
#include "every_answer.h"
#include "faults.h"
#include "fox.h"
#include "groups.h"
#include "sample.h"
#include "tally.h"

#include <inttypes.h>
#include <stdio.h>

static void every_answer(void)
{
    static const uint32_t answers[] = {
        FOX_SERVED,         FOX_REFUSED_CIPHER, FOX_REFUSED_ROUNDS, FOX_REFUSED_KEY,    FOX_REFUSED_BLOCK,
        FOX_REFUSED_OUTPUT, FOX_REFUSED_END,    FOX_REFUSED_TAG,    FOX_REFUSED_HEADER, FOX_REFUSED_FILE,
        FOX_REFUSED_SHORT_KEY,
    };
    each_answered(answers, COUNT(answers));
}

int main(int count, char **words)
{
    static void (*const groups[])(void) = {
        vector_files,  given_old_files, keys_of_every_length, chance_files, cut_files,     changed_bytes,
        changed_lines, edited_files,    damaged_files,        limits,       refusals,      ends,
        far_scan,      made_up_places,  every_answer,
    };
    if (count < 3 || count > 4) {
        fprintf(stderr, "usage: file VECTORS OLD [SEED]\n");
        return 2;
    }
    tally_begin("file");
    printf("file: seed %" PRIu64 "\n", chance_begin(count > 3 ? words[3] : NULL));
    catch_faults();
    read_samples(words[1], words[2]);
    for (size_t i = 0; i < COUNT(groups); i++)
        groups[i]();
    printf("file: %ld cases, ", tally_cases());
    show_answers();
    return tally_end();
}
