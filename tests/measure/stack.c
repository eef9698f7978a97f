/* Holds the stack that each call of fox.h takes to what the header says, seen from how far a painted stack was
 * written; what its caller takes is counted too. */
#include "call.h"
#include "count.h"
#include "fox.h"
#include "measure.h"
#include "painted.h"
#include "tally.h"

#include <stdio.h>

/* Part of a block, whole blocks, and part of a block; a message of WHOLE bytes ends with a whole block of either
 * cipher. */
enum { OFFSET = 3, LENGTH = 150, WHOLE = 144 };

static uint8_t key[FOX_MOST_KEY], first[FOX128_BLOCK], data[LENGTH], out[LENGTH];

static const struct engine *engine;
static enum verb verb;
static struct call call;
static uint32_t answer;

static void caller(void)
{
    answer = make_call(engine, verb, &call);
}

/* The tag that is tested is one that the engine makes itself. */
static void store_tag(void)
{
    struct call make = call;
    make.out = first;
    make.out_len = right_out_len(MAKE_TAG, &call);
    make_call(engine, MAKE_TAG, &make);
}

/* PAINTED where the call answers otherwise than its key has it: one that is too short to seal with is refused. */
static size_t written_by(uint32_t cipher, size_t key_len, size_t data_len)
{
    call = (struct call){cipher, FOX_MOST_ROUNDS, key, key_len, first, block_of(cipher), OFFSET, data, data_len,
                         out, 0};
    call.out_len = right_out_len(verb, &call);
    if (verb == TEST_TAG)
        store_tag();
    on_painted_stack(caller);
    size_t used = stack_written();
    return answer == key_answer(verb, key_len) ? used : PAINTED;
}

/* The most over both ciphers, keys of either schedule, whole and padded, and data that is none, whole and not. */
static size_t most_written(void)
{
    static const size_t key_lens[] = {0, 15, 16, 17, FOX_MOST_KEY}, data_lens[] = {0, WHOLE, LENGTH};
    size_t most = 0;
    for (uint32_t cipher = FOX64; cipher <= FOX128; cipher += FOX64)
        for (size_t i = 0; i < COUNT(key_lens) * COUNT(data_lens); i++) {
            size_t used = written_by(cipher, key_lens[i / COUNT(data_lens)], data_lens[i % COUNT(data_lens)]);
            most = used > most ? used : most;
        }
    return most;
}

/* One figure for each engine. */
void stacks(void)
{
    for (size_t i = 0; i < ENGINES; i++) {
        char words[256] = "";
        size_t most = 0, end = 0;
        engine = &engines[i];
        for (verb = 0; verb < VERBS; verb++) {
            size_t used = most_written();
            end += (size_t)snprintf(words + end, sizeof words - end, "%s %zu for %s", verb == 0 ? "" : ",", used,
                                    verbs[verb].name);
            most = used > most ? used : most;
        }
        figure(most > 0 && most < engine->stack, "bytes of stack by the %s:%s, to stay below %zu", engine->name, words,
               engine->stack);
    }
}
