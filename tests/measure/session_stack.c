/* Holds the stack that each call on a session takes to what the header says, seen from how far a painted stack was
 * written; what its caller takes is counted too. */
#include "call.h"
#include "count.h"
#include "measure.h"
#include "painted.h"
#include "session_call.h"
#include "tally.h"

#include <stdio.h>

enum { ROOM = 200 };

static uint8_t key[FOX_MOST_KEY], counter[FOX128_BLOCK], input[ROOM], out[ROOM];
static uint64_t session[FOX_SESSION_WORDS];
static enum session_verb verb;
static struct session_call call;
static uint32_t answer;

static void caller(void)
{
    answer = make_session_call(verb, &call);
}

/* PAINTED where the call was refused. */
static size_t written(void)
{
    on_painted_stack(caller);
    size_t used = stack_written();
    return answer == FOX_SERVED ? used : PAINTED;
}

/* The most over stretches that begin and end within a block and at its edges, and over moves within a block, on and
 * back, each made of a session at position 3. */
static size_t most_of_verb(int opening)
{
    static const size_t lengths[] = {0, 1, 4, 5, 13, 16, 29, 150, ROOM};
    static const uint64_t positions[] = {0, 3, 4, 8, 16, 1000, FOX_RUN_END - 1, FOX_RUN_END};
    size_t most = 0;
    for (size_t i = 0; i < COUNT(lengths); i++) {
        if (make_session_call(start_verb(opening), &call) != FOX_SERVED ||
            fox_session_move(session, 3) != FOX_SERVED)
            return PAINTED;
        call.input_len = call.out_len = lengths[i];
        call.position = positions[i % COUNT(positions)];
        size_t used = written();
        most = used > most ? used : most;
    }
    return most;
}

/* Of sessions in both directions, and of those for sealing with keys that seal; a start is that of its own direction
 * alone. */
static size_t most_used(void)
{
    static const size_t key_lens[] = {0, 15, 16, 17, FOX_MOST_KEY};
    size_t most = 0;
    for (size_t i = 0; i < 4 * COUNT(key_lens); i++) {
        const uint32_t cipher = i % 2 == 0 ? FOX64 : FOX128;
        const int opening = i / 2 % 2 == 1;
        const size_t key_len = key_lens[i / 4];
        if ((is_start(verb) && verb != start_verb(opening)) || (!opening && key_len < FOX_LEAST_SEAL_KEY))
            continue;
        call = (struct session_call){cipher, FOX_MOST_ROUNDS, key, key_len, counter, block_of(cipher), session, input,
                                     0, out, 0, 0};
        size_t used = most_of_verb(opening);
        most = used > most ? used : most;
    }
    return most;
}

void session_stacks(void)
{
    char words[256] = "";
    size_t most = 0, end = 0;
    for (verb = 0; verb < SESSION_VERBS; verb++) {
        size_t used = most_used();
        end += (size_t)snprintf(words + end, sizeof words - end, "%s %zu for %s", verb == 0 ? "" : ",", used,
                                session_verbs[verb]);
        most = used > most ? used : most;
    }
    figure(most > 0 && most < FOX_SERVER_STACK, "bytes of stack on sessions:%s, to stay below %d", words,
           FOX_SERVER_STACK);
}
