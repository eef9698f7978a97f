/* Holds the stack that each call on a run file takes to what the header says, seen from how far a painted stack was
 * written; what its caller takes is counted too. */
#include "call.h"
#include "count.h"
#include "file.h"
#include "file_call.h"
#include "measure.h"
#include "painted.h"
#include "tally.h"

#include <stdio.h>

enum { MOST_DATA = 200, ROOM = 1024 };

/* Scans that begin and end within blocks and at their edges, and empty ones, ten of them, so that a number has two
 * digits. */
static const uint64_t lengths[] = {0, 3, 13, 16, 0, 48, 7, 25, 32, 56};

static uint8_t key[FOX_MOST_KEY], counter[FOX128_BLOCK], data[MOST_DATA], file[ROOM], out[ROOM];
static uint64_t place[FOX_PLACE_WORDS], count;
static enum file_verb verb;
static struct file_call call;
static uint64_t answer;

static void caller(void)
{
    answer = make_file_call(verb, &call);
}

static size_t written(enum file_verb made)
{
    verb = made;
    on_painted_stack(caller);
    return stack_written();
}

/* The file is one of the second implementation's old writer, which takes short keys too. */
static int prepare(uint32_t cipher, size_t key_len, size_t scans)
{
    call = (struct file_call){cipher, FOX_MOST_ROUNDS, key, key_len, counter, block_of(cipher), data, 0, lengths, scans,
                              file, 0, place, out, sizeof out, &count};
    for (size_t i = 0; i < scans; i++)
        call.data_len += (size_t)lengths[i];
    if (second_old_file_write(cipher, FOX_MOST_ROUNDS, key, key_len, counter, call.counter_len, data, call.data_len,
                              lengths, scans, file, sizeof file, &count) != FOX_SERVED)
        return 0;
    call.file_len = (size_t)count;
    return make_file_call(FILE_TAKE_UP, &call) == FOX_SERVED;
}

/* The most over all scans of a file and its end; PAINTED where a call is refused. */
static size_t most_at_places(enum file_verb made, size_t scans)
{
    size_t most = 0;
    for (size_t i = 0; i <= scans; i++) {
        call.out_len = i < scans ? (size_t)lengths[i] : 0;
        size_t used = written(made);
        if (made == FILE_READ && answer != FOX_SERVED)
            return PAINTED;
        if (made == FILE_NEXT)
            make_file_call(FILE_SKIP, &call);
        most = used > most ? used : most;
    }
    return most;
}

static size_t used_by(enum file_verb made, uint32_t cipher, size_t key_len, size_t scans)
{
    if (!prepare(cipher, key_len, scans))
        return PAINTED;
    if (made == FILE_NEXT || made == FILE_READ || made == FILE_SKIP)
        return most_at_places(made, scans);
    size_t used = written(made);
    return answer == FOX_SERVED ? used : PAINTED;
}

/* Of a writer with keys that seal alone. */
static size_t most_used(enum file_verb made)
{
    static const size_t key_lens[] = {0, 15, 16, 17, FOX_MOST_KEY};
    size_t most = 0;
    for (size_t i = 0; i < 2 * COUNT(key_lens) * (COUNT(lengths) + 1); i++) {
        const size_t key_len = key_lens[i / 2 % COUNT(key_lens)], scans = i / 2 / COUNT(key_lens);
        if (made == FILE_WRITE && key_len < FOX_LEAST_SEAL_KEY)
            continue;
        size_t used = used_by(made, i % 2 == 0 ? FOX64 : FOX128, key_len, scans);
        most = used > most ? used : most;
    }
    return most;
}

void file_stacks(void)
{
    char words[256] = "";
    size_t most = 0, end = 0;
    for (enum file_verb made = 0; made < FILE_VERBS; made++) {
        size_t used = most_used(made);
        end += (size_t)snprintf(words + end, sizeof words - end, "%s %zu for %s", made == 0 ? "" : ",", used,
                                file_verbs[made].name);
        most = used > most ? used : most;
    }
    figure(most > 0 && most < FOX_SERVER_STACK, "bytes of stack on run files:%s, to stay below %d", words,
           FOX_SERVER_STACK);
}
