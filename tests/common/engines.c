/* The table of the library's engines, made of the lines of engines.def. */
#include "engines.h"
#include "fox.h"

#define ENGINE(name, stack, work)                                                     \
    {#name, fox_##name##_seal_block, fox_##name##_open_block, fox_##name##_seal_run,  \
     fox_##name##_open_run, fox_##name##_make_tag, fox_##name##_test_tag, stack, work},
const struct engine engines[ENGINES] = {
#include "engines.def"
};

_Static_assert(ENGINES >= 2, "engines are held to one another");
