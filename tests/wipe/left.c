/* Looks for keys in the stack that a call has left behind: without fox_wipe_stack they are there, and after it none is.
 * Usage: left [ENGINE], for the calls of that engine alone; without it those on sessions and on run files are made too.
 * Last line: 'N passed, M failed'. */
#include "call.h"
#include "count.h"
#include "file.h"
#include "file_call.h"
#include "fox.h"
#include "painted.h"
#include "parts.h"
#include "session_call.h"
#include "tally.h"

#include <stdio.h>
#include <string.h>

enum { WORD = 4, ROUNDS = 16, LENGTH = 150, ROOM = 512 };

static uint8_t first[FOX128_BLOCK], data[LENGTH], out[LENGTH], key[FOX_MOST_KEY], file[ROOM];
static const struct engine *engine;
static enum verb verb;
static struct call call;
static enum file_verb file_verb;
static struct file_call file_call;
static enum session_verb session_verb;
static struct session_call session_call;
static uint64_t place[FOX_PLACE_WORDS], count, words_of_session[FOX_SESSION_WORDS];
static uint32_t answer;
static int wiping;

/* The library's caller: both calls are made by one function. */
static void caller(void)
{
    answer = make_call(engine, verb, &call);
    if (wiping)
        fox_wipe_stack();
}

static void file_caller(void)
{
    answer = (uint32_t)make_file_call(file_verb, &file_call);
    if (wiping)
        fox_wipe_stack();
}

static void session_caller(void)
{
    answer = make_session_call(session_verb, &session_call);
    if (wiping)
        fox_wipe_stack();
}

static void prepare(uint32_t cipher, size_t key_len)
{
    call = (struct call){cipher, ROUNDS, key, key_len, first, block_of(cipher), 3, data, sizeof data, out, 0};
    call.out_len = right_out_len(verb, &call);
}

/* A file of two scans, the first of which is read. It is written before, under any key, and taken up by the library. */
static void prepare_file(uint32_t cipher, size_t key_len)
{
    static const uint64_t lengths[] = {LENGTH - 50, 50};
    struct file_call *c = &file_call;
    *c = (struct file_call){cipher, ROUNDS, key, key_len, first, block_of(cipher), data, sizeof data, lengths,
                            COUNT(lengths), file, 0, place, file, sizeof file, &count};
    answer = second_old_file_write(cipher, ROUNDS, key, key_len, first, c->counter_len, data, sizeof data, lengths,
                                   COUNT(lengths), file, sizeof file, &count);
    c->file_len = (size_t)count;
    answer += (uint32_t)make_file_call(FILE_TAKE_UP, c);
    if (file_verb == FILE_READ)
        c->out = out, c->out_len = (size_t)lengths[0];
}

/* The session is started before it is called; the call leads out of its first block. */
static void prepare_session(uint32_t cipher, size_t key_len)
{
    session_call = (struct session_call){cipher, ROUNDS, key, key_len, first, block_of(cipher), words_of_session, data,
                                         sizeof data, out, sizeof data, 1000};
    answer = make_session_call(SESSION_START_OPENING, &session_call);
}

/* How a call is prepared and made, by what name it goes, what it answers, to a key that is too short to seal with too,
 * and whether it may leave nothing behind. */
struct made {
    void (*prepare)(uint32_t cipher, size_t key_len), (*make)(void);
    char name[40];
    uint32_t right, right_to_short;
    int none;
};

/* Words that are left, of key and mixed key, and of round keys. */
struct left {
    size_t keys, round_keys;
};

static struct left left_by(const struct made *made, uint32_t cipher, size_t key_len, int wiped)
{
    uint8_t mixed[MOST_KEY], round_keys[ROUNDS * MOST_BLOCK];
    size_t block = block_of(cipher), ek = second_ek(block, key_len);
    second_mixed_key(mixed, ek, key, key_len);
    second_round_keys(round_keys, block, ROUNDS, key, key_len);
    made->prepare(cipher, key_len);
    wiping = wiped;
    on_painted_stack(made->make);
    return (struct left){words_left(key, key_len, WORD) + words_left(mixed, ek, WORD),
                         words_left(round_keys, block * ROUNDS, WORD)};
}

/* Keys that are mixed and keys that are not, for each cipher. A call that is refused for its key leaves nothing of it. */
static void one_call(const struct made *made)
{
    static const size_t key_lens[] = {12, 16, 24, FOX_MOST_KEY};
    struct left without = {0, 0}, after = {0, 0};
    int some = 1;
    for (size_t i = 0; i < 2 * COUNT(key_lens); i++) {
        uint32_t cipher = i % 2 == 0 ? FOX64 : FOX128;
        uint32_t right = key_lens[i / 2] < FOX_LEAST_SEAL_KEY ? made->right_to_short : made->right;
        struct left l = left_by(made, cipher, key_lens[i / 2], 0), w = left_by(made, cipher, key_lens[i / 2], 1);
        int any = l.keys + l.round_keys > 0;
        some &= answer == right && (made->none || any == (right != FOX_REFUSED_SHORT_KEY));
        without.keys += l.keys, without.round_keys += l.round_keys;
        after.keys += w.keys, after.round_keys += w.round_keys;
    }
    figure(some && after.keys + after.round_keys == 0,
           "fox_%s leaves %zu words of keys and mixed keys and %zu of round keys, after fox_wipe_stack %zu and %zu",
           made->name, without.keys, without.round_keys, after.keys, after.round_keys);
}

/* No tag that is tested here is right. */
static void engine_call(void)
{
    const uint32_t right = verb == TEST_TAG ? FOX_REFUSED_TAG : FOX_SERVED;
    struct made made = {prepare, caller, "", right, verbs[verb].seals ? FOX_REFUSED_SHORT_KEY : right, 0};
    snprintf(made.name, sizeof made.name, "%s_%s", engine->name, verbs[verb].name);
    one_call(&made);
}

/* A move seals one block, and may do so by the round keys where they are. */
static void calls_on_sessions(void)
{
    for (session_verb = 0; session_verb < SESSION_VERBS; session_verb++) {
        struct made made = {prepare_session, session_caller, "", FOX_SERVED, FOX_SERVED, session_verb == SESSION_MOVE};
        if (session_verb == SESSION_START_SEALING)
            made.right_to_short = FOX_REFUSED_SHORT_KEY;
        snprintf(made.name, sizeof made.name, "%s", session_verbs[session_verb]);
        one_call(&made);
    }
}

static void calls_on_files(void)
{
    for (file_verb = 0; file_verb < FILE_VERBS; file_verb++) {
        struct made made = {prepare_file, file_caller, "", FOX_SERVED, FOX_SERVED, 0};
        if (file_verb == FILE_WRITE)
            made.right_to_short = FOX_REFUSED_SHORT_KEY;
        snprintf(made.name, sizeof made.name, "%s", file_verbs[file_verb].name);
        if (file_verbs[file_verb].has & HAS_KEY)
            one_call(&made);
    }
}

/* An array that nothing looks at afterwards. */
static void with_array(void)
{
    uint8_t copy[sizeof key];
    memcpy(copy, key, sizeof copy);
    __asm__ volatile("" : : "r"(copy) : "memory");
    if (wiping)
        fox_wipe(copy, sizeof copy);
}

static void one_array(void)
{
    size_t left[2];
    for (wiping = 0; wiping < 2; wiping++) {
        on_painted_stack(with_array);
        left[wiping] = words_left(key, sizeof key, WORD);
    }
    figure(left[0] == sizeof key / WORD && left[1] == 0,
           "of a key in an array of its caller's %zu words are left, and after fox_wipe %zu", left[0], left[1]);
}

/* A session in an array of its caller's, done with as fox.h says: of wiping the first bit is that of the stack, the
 * second that of the words. */
static void with_session(void)
{
    uint64_t session[FOX_SESSION_WORDS];
    answer = fox_session_start_sealing(FOX128, ROUNDS, key, sizeof key, first, FOX128_BLOCK, session);
    answer += fox_session_advance(session, data, sizeof data, out, sizeof data);
    if (wiping & 1)
        fox_wipe_stack();
    if (wiping & 2)
        fox_wipe(session, sizeof session);
}

static void one_session(void)
{
    uint8_t round_keys[ROUNDS * FOX128_BLOCK];
    size_t left[4];
    int right = 1;
    second_round_keys(round_keys, FOX128_BLOCK, ROUNDS, key, sizeof key);
    for (wiping = 0; wiping < 4; wiping++) {
        on_painted_stack(with_session);
        left[wiping] = words_left(round_keys, sizeof round_keys, WORD);
        right &= answer == FOX_SERVED;
    }
    right &= left[0] == sizeof round_keys / WORD && left[1] == sizeof round_keys / WORD && left[3] == 0;
    figure(right, "of a session's round keys %zu words are left, after fox_wipe_stack %zu, after fox_wipe %zu, after both %zu",
           left[0], left[1], left[2], left[3]);
}

static void exactly(void)
{
    uint8_t bytes[40];
    int right = 1;
    for (size_t from = 1; from < 20; from++)
        for (size_t len = 0; len < 20; len++) {
            memset(bytes, PAINT, sizeof bytes);
            fox_wipe(bytes + from, len);
            for (size_t i = 0; i < sizeof bytes; i++)
                right &= bytes[i] == (i >= from && i < from + len ? 0 : PAINT);
        }
    figure(right, "fox_wipe sets to zero what it is asked to, and nothing beside it");
}

/* What its caller takes is counted too. */
static void as_deep_as_said(size_t depth)
{
    size_t zeros = 0;
    on_painted_stack(fox_wipe_stack);
    size_t taken = stack_written();
    for (size_t i = sizeof painted - taken; i < sizeof painted; i++)
        zeros += painted[i] == 0;
    figure(zeros >= depth && taken < depth + 64, "fox_wipe_stack wipes %zu bytes and takes %zu, to be %zu and less than %zu",
           zeros, taken, depth, depth + 64);
}

int main(int word_count, char **words)
{
    size_t deepest = 0;
    tally_begin("wipe");
    for (size_t i = 0; i < sizeof key; i++)
        key[i] = (uint8_t)(0x9D + 37 * i);
    for (size_t i = 0; i < ENGINES; i++) {
        engine = &engines[i];
        if (word_count > 1 && strcmp(words[1], engine->name) != 0)
            continue;
        deepest = engine->stack > deepest ? engine->stack : deepest;
        for (verb = 0; verb < VERBS; verb++)
            engine_call();
    }
    if (word_count == 1) {
        calls_on_sessions();
        calls_on_files();
        one_session();
    }
    one_array();
    exactly();
    as_deep_as_said(deepest);
    return tally_end();
}
