/* Four threads make every engine's calls and those on sessions and run files at once, each with another cipher, key and
 * offset, and are to get the bytes that the same calls gave alone. Two of them have a key that opens and does not seal. */
#define _GNU_SOURCE
#include "call.h"
#include "fox.h"

#include <pthread.h>
#include <stdio.h>
#include <string.h>

enum { THREADS = 4, TIMES = 30, LENGTH = 500, FILE_ROOM = 700 };

struct caller {
    uint32_t cipher, rounds;
    size_t key_len;
    uint64_t offset;
    uint8_t key[FOX_MOST_KEY], first[FOX128_BLOCK], data[LENGTH], alone[VERBS][LENGTH], file_alone[FILE_ROOM];
    int wrong;
};

static pthread_barrier_t all_here;

static void set(struct caller *c, int number)
{
    *c = (struct caller){.cipher = number % 2 == 0 ? FOX64 : FOX128, .rounds = FOX_LEAST_ROUNDS + (uint32_t)number};
    c->offset = (uint64_t)number * 1001;
    c->key_len = (size_t)number * 10;
    memset(c->key, 0x11 * (number + 1), sizeof c->key);
    memset(c->first, 0xF0 + number, sizeof c->first);
    memset(c->data, number, sizeof c->data);
}

/* Whether the caller's key is too short to seal with. */
static int opens_alone(const struct caller *c)
{
    return key_answer(SEAL, c->key_len) != FOX_SERVED;
}

/* The call, and the one that takes back what it has put out; of these the one that seals is refused to a short key. */
static int there_and_back(const struct caller *c, const struct engine *engine, enum verb verb, uint8_t *out)
{
    uint8_t again[LENGTH];
    struct call call = {c->cipher, c->rounds, c->key, c->key_len, c->first, block_of(c->cipher), c->offset, c->data,
                        LENGTH, out, 0};
    call.out_len = right_out_len(verb, &call);
    struct call taking = back_call(verb, &call, again);
    uint32_t there = key_answer(verb, c->key_len), back = key_answer(verbs[verb].back, c->key_len);
    if (make_call(engine, verb, &call) != there)
        return 0;
    if (there != FOX_SERVED)
        return 1;
    return make_call(engine, verbs[verb].back, &taking) == back &&
           (back != FOX_SERVED || memcmp(again, went_in(verb, &call), taking.out_len) == 0);
}

/* Every call of the engine, each into an output of its own; answers with 0 where one answers otherwise than its key has
 * it, or what it has put out does not come back. */
static int called(const struct caller *c, const struct engine *engine, uint8_t out[VERBS][LENGTH])
{
    int right = 1;
    for (enum verb verb = 0; verb < VERBS; verb++)
        if (verbs[verb].back != NO_VERB)
            right = right && there_and_back(c, engine, verb, out[verb]);
    return right;
}

/* The run again, by a session in words of the thread's own, in pieces of 1 to 29 bytes. */
static int in_session(const struct caller *c)
{
    uint64_t session[FOX_SESSION_WORDS];
    uint8_t out[LENGTH];
    uint32_t started = (opens_alone(c) ? fox_session_start_opening : fox_session_start_sealing)(
        c->cipher, c->rounds, c->key, c->key_len, c->first, block_of(c->cipher), session);
    if (started != FOX_SERVED || fox_session_move(session, c->offset) != FOX_SERVED)
        return 0;
    for (size_t at = 0, piece = 1; at < LENGTH; at += piece, piece = piece % 29 + 1) {
        piece = piece < LENGTH - at ? piece : LENGTH - at;
        if (fox_session_advance(session, c->data + at, piece, out + at, piece) != FOX_SERVED)
            return 0;
    }
    return memcmp(out, c->alone[OPEN_RUN], LENGTH) == 0;
}

/* The data as a run file of two scans, written, taken up, and read; to a short key writing is refused. */
static int filed(const struct caller *c, uint8_t *file)
{
    const uint64_t lengths[] = {LENGTH - 77, 77};
    const size_t b = block_of(c->cipher);
    uint64_t size, place[FOX_PLACE_WORDS], count;
    uint8_t out[LENGTH], *at = out;
    uint32_t written = fox_file_write(c->cipher, c->rounds, c->key, c->key_len, c->first, b, c->data, LENGTH, lengths, 2,
                                      file, FILE_ROOM, &size);
    if (opens_alone(c))
        return written == FOX_REFUSED_SHORT_KEY;
    if (written != FOX_SERVED ||
        fox_file_take_up(c->cipher, c->rounds, c->key, c->key_len, file, (size_t)size, place) != FOX_SERVED)
        return 0;
    for (size_t i = 0; i < 2; i++, at += count)
        if (fox_file_read(c->cipher, c->rounds, c->key, c->key_len, file, (size_t)size, place, at, (size_t)lengths[i],
                          &count) != FOX_SERVED)
            return 0;
    return memcmp(out, c->data, LENGTH) == 0 && fox_file_next_length(file, (size_t)size, place) == FOX_NO_SCAN;
}

static int again(const struct caller *c, const struct engine *engine)
{
    uint8_t out[VERBS][LENGTH] = {{0}}, file[FILE_ROOM] = {0};
    return called(c, engine, out) && memcmp(out, c->alone, sizeof out) == 0 && in_session(c) && filed(c, file) &&
           memcmp(file, c->file_alone, sizeof file) == 0;
}

static void *call_often(void *caller)
{
    struct caller *c = caller;
    pthread_barrier_wait(&all_here);
    for (size_t i = 0; i < TIMES * ENGINES; i++)
        c->wrong += !again(c, &engines[i % ENGINES]);
    return NULL;
}

/* What the first engine gives alone, and every other one as well. */
static int prepared(struct caller *c)
{
    int right = called(c, &engines[0], c->alone) && in_session(c) && filed(c, c->file_alone);
    for (size_t i = 1; i < ENGINES; i++)
        right = right && again(c, &engines[i]);
    return right;
}

int main(void)
{
    static struct caller callers[THREADS];
    pthread_t threads[THREADS];
    int wrong = 0;
    pthread_barrier_init(&all_here, NULL, THREADS);
    for (int i = 0; i < THREADS; i++) {
        set(&callers[i], i);
        if (!prepared(&callers[i]))
            return puts("alone, two engines differ, or one answers otherwise or does not take back what it has put out"), 1;
    }
    for (int i = 0; i < THREADS; i++)
        if (pthread_create(&threads[i], NULL, call_often, &callers[i]) != 0)
            return 1;
    for (int i = 0; i < THREADS; i++) {
        pthread_join(threads[i], NULL);
        wrong += callers[i].wrong;
    }
    printf("%d of %d times the calls of four threads came out otherwise than alone\n", wrong,
           THREADS * TIMES * (int)ENGINES);
    return wrong != 0;
}
