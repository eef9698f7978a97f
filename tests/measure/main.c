/* Measures the compiled library. Last line: 'N passed, M failed', where each figure counts one. */
#include "measure.h"
#include "tally.h"

int main(void)
{
    tally_begin("measure");
    instructions();
    stacks();
    session_stacks();
    file_stacks();
    return tally_end();
}
