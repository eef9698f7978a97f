/* Looks at the instructions, and the accesses to data, of calls that differ in secrets alone.
 * Usage: traced can-step: whether a child can be stepped through, as the exit status.
 *        traced calls|lackey|emulator|step ENGINE PLAN: makes the calls; reads what valgrind's tool lackey, or an emulator, has
 *        written while they were made; steps through them. Last line: 'N passed, M failed'. */
#include "count.h"
#include "tally.h"
#include "trace.h"

#include <string.h>

static void plain(const struct engine *engine, const struct plan *plan)
{
    size_t wrong = make_calls(engine, plan);
    figure(wrong == 0, "the engine %s, %zu groups of %zu calls: %zu did not answer as they should", engine->name,
           plan->count, plan->calls, wrong);
}

static void by_lackey(const struct engine *engine, const struct plan *plan)
{
    static const char *const names[SORTS] = {"instructions", "accesses to data"};
    compare_begin(engine, plan, names);
    read_lackey();
    compare_end();
}

static void by_emulator(const struct engine *engine, const struct plan *plan)
{
    static const char *const names[SORTS] = {"pieces of code", NULL};
    compare_begin(engine, plan, names);
    read_emulator();
    compare_end();
}

static void by_steps(const struct engine *engine, const struct plan *plan)
{
    static const char *const names[SORTS] = {"instructions by stepping", NULL};
    compare_begin(engine, plan, names);
    step_through(engine, plan);
    compare_end();
}

static const struct {
    const char *name;
    void (*work)(const struct engine *engine, const struct plan *plan);
} modes[] = {{"calls", plain}, {"lackey", by_lackey}, {"emulator", by_emulator}, {"step", by_steps}};

int main(int count, char **words)
{
    if (count == 2 && strcmp(words[1], "can-step") == 0)
        return !can_step();
    const struct engine *engine = count == 4 ? engine_of(words[2]) : NULL;
    const struct plan *plan = count == 4 ? plan_of(words[3]) : NULL;
    for (size_t i = 0; engine != NULL && plan != NULL && i < COUNT(modes); i++)
        if (strcmp(modes[i].name, words[1]) == 0) {
            tally_begin("trace");
            modes[i].work(engine, plan);
            return tally_end();
        }
    return 2;
}
