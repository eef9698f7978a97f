/* Counts the instructions that one more block takes by the server, alone, in a run, in a session and in a tag, those of
 * a run from two counters, and those of a session inside its block in use, by running a child one instruction at a
 * time, where the system lets it be stepped through. */
#define _GNU_SOURCE
#include "count.h"
#include "fox.h"
#include "measure.h"
#include "tally.h"

#include <signal.h>
#include <stdio.h>
#include <string.h>
#include <sys/ptrace.h>
#include <sys/wait.h>
#include <unistd.h>

uint32_t fox_probe_again64(const uint64_t *keys, uint32_t blocks, uint32_t l, uint32_t r);
uint32_t fox_probe_again128(const uint64_t *keys, uint32_t blocks, uint32_t a, uint32_t b, uint32_t c, uint32_t d);

enum { INSTRUCTIONS_64 = 1500, INSTRUCTIONS_128 = 3000, INSTRUCTIONS_INSIDE = 500 };
#ifdef __aarch64__
enum { RUN_INSTRUCTIONS_64 = 650, RUN_INSTRUCTIONS_128 = 1300 };
enum { TAG_INSTRUCTIONS_64 = 690, TAG_INSTRUCTIONS_128 = 1460 };
#else
enum { RUN_INSTRUCTIONS_64 = 650, RUN_INSTRUCTIONS_128 = 1400 };
enum { TAG_INSTRUCTIONS_64 = 690, TAG_INSTRUCTIONS_128 = 1550 };
#endif

/* What a child is stepped through: a block sealed so many times over lent keys, and so many bytes of a run or of a
 * message. */

typedef uint32_t work(uint32_t bits, uint32_t amount);

static uint64_t keys[510];

static uint32_t again(uint32_t bits, uint32_t blocks)
{
    return bits == FOX64 ? fox_probe_again64(keys, blocks, 1, 2) : fox_probe_again128(keys, blocks, 1, 2, 3, 4);
}

static uint32_t nothing(uint32_t bits, uint32_t amount)
{
    return bits + amount;
}

enum { SHORT = 256, LONG = 768 };
static uint8_t key[FOX_MOST_KEY], counter[FOX128_BLOCK], input[LONG], out[LONG];

static uint32_t server_run(uint32_t bits, uint32_t bytes)
{
    return fox_server_seal_run(bits, 16, key, 16, counter, bits / 8, 0, input, bytes, out, bytes);
}

static uint32_t server_tag(uint32_t bits, uint32_t bytes)
{
    return fox_server_make_tag(bits, 16, key, 16, input, bytes, out, bits / 8);
}

static uint64_t session[FOX_SESSION_WORDS];

static uint32_t start(uint32_t bits, uint32_t rounds)
{
    return fox_session_start_sealing(bits, rounds, key, 16, counter, bits / 8, session);
}

static uint32_t advance(uint32_t bits, uint32_t bytes)
{
    (void)bits;
    return fox_session_advance(session, input, bytes, out, bytes);
}

static uint32_t move(uint32_t bits, uint32_t position)
{
    (void)bits;
    return fox_session_move(session, position);
}

/* The instructions of a child that does the job; -1 where a child cannot be stepped through. */
static long steps(work *job, uint32_t bits, uint32_t amount)
{
    pid_t child = fork();
    if (child == 0) {
        if (ptrace(PTRACE_TRACEME, 0, NULL, NULL) != 0)
            _exit(1);
        raise(SIGSTOP);
        volatile uint32_t last = job(bits, amount);
        (void)last;
        _exit(0);
    }
    int status;
    if (child < 0 || waitpid(child, &status, 0) != child || !WIFSTOPPED(status))
        return -1;
    long count = 0;
    while (ptrace(PTRACE_SINGLESTEP, child, NULL, NULL) == 0 && waitpid(child, &status, 0) == child) {
        if (WIFEXITED(status))
            return WEXITSTATUS(status) == 0 ? count : -1;
        count++;
    }
    return -1;
}

static void held(const char *what, uint32_t bits, long found, long limit)
{
    figure(found > 0 && found < limit, "instructions of one more FOX%u block of 16 rounds %s: %ld, to stay below %ld",
           (unsigned)bits, what, found, limit);
}

static void of_block(uint32_t bits, long limit)
{
    long one = steps(again, bits, 1), two = steps(again, bits, 2), three = steps(again, bits, 3);
    held("alone", bits, two - one > three - two ? two - one : three - two, limit);
}

/* The longer of two runs, or messages, less the shorter: preparing the key and all that a call does once cancel out,
 * and what each block or each four of them do stays, so a table or a key that they copied would show. A call that is
 * refused does neither, so it is seen to be served first. */
static void of_bytes(work *job, const char *where, uint32_t bits, long limit)
{
    if (job(bits, SHORT) != FOX_SERVED || job(bits, LONG) != FOX_SERVED) {
        figure(0, "a call on FOX%u blocks %s was refused", (unsigned)bits, where);
        return;
    }
    long less = steps(job, bits, SHORT), more = steps(job, bits, LONG);
    long blocks = (LONG - SHORT) / (bits / 8);
    held(where, bits, (more - less + blocks - 1) / blocks, limit);
}

/* From a counter of ones something is carried into every word. That takes no other instructions, so there is no branch
 * on what is carried. */
static void of_carries(uint32_t bits)
{
    uint32_t bytes = 6 * bits / 8;
    int served = server_run(bits, bytes) == FOX_SERVED;
    long none = steps(server_run, bits, bytes);
    memset(counter, 0xFF, sizeof counter);
    long all = steps(server_run, bits, bytes);
    memset(counter, 0xA5, sizeof counter);
    figure(served && none > 0 && all == none,
           "instructions of the server's run on six FOX%u blocks: %ld where nothing is carried, %ld where every word is",
           (unsigned)bits, none, all);
}

/* Inside the block in use nothing is sealed: the rounds make no difference, and the instructions are few. */
static void of_inside(work *job, const char *what, uint32_t bits)
{
    int served = start(bits, FOX_LEAST_ROUNDS) == FOX_SERVED && job(bits, 2) == FOX_SERVED;
    long none = steps(nothing, bits, 2), few = steps(job, bits, 2) - none;
    served = served && start(bits, FOX_MOST_ROUNDS) == FOX_SERVED && job(bits, 2) == FOX_SERVED;
    long many = steps(job, bits, 2) - none;
    figure(served && few > 0 && few == many && few < INSTRUCTIONS_INSIDE,
           "instructions of %s inside a FOX%u session's block in use: %ld with %d rounds, %ld with %d, to stay below %d",
           what, (unsigned)bits, few, FOX_LEAST_ROUNDS, many, FOX_MOST_ROUNDS, INSTRUCTIONS_INSIDE);
}

static void of_session(uint32_t bits)
{
    of_inside(advance, "an advance of 2 bytes", bits);
    of_inside(move, "a move", bits);
}

/* Beyond the block in use a block costs what it does in a run. */
static void beyond(uint32_t bits, long limit)
{
    if (start(bits, 16) == FOX_SERVED)
        of_bytes(advance, "in a session", bits, limit);
    else
        figure(0, "a FOX%u session was not started", (unsigned)bits);
}

void instructions(void)
{
    for (size_t i = 0; i < COUNT(keys); i++)
        keys[i] = 0x9E3779B97F4A7C15u * (i + 1);
    memset(key, 0x5A, sizeof key);
    memset(counter, 0xA5, sizeof counter);
    memset(input, 0xC3, sizeof input);
    if (steps(nothing, 0, 0) <= 0) {
        printf("measure: left out: instructions of a block, since a child cannot be stepped through here\n");
        return;
    }
    of_block(FOX64, INSTRUCTIONS_64);
    of_block(FOX128, INSTRUCTIONS_128);
    of_bytes(server_run, "in the server's run", FOX64, RUN_INSTRUCTIONS_64);
    of_bytes(server_run, "in the server's run", FOX128, RUN_INSTRUCTIONS_128);
    of_carries(FOX64);
    of_carries(FOX128);
    of_session(FOX64);
    of_session(FOX128);
    /* Both ciphers go by the same code there, and stepping takes its time. */
    beyond(FOX64, RUN_INSTRUCTIONS_64);
    of_bytes(server_tag, "in the server's tag", FOX64, TAG_INSTRUCTIONS_64);
    of_bytes(server_tag, "in the server's tag", FOX128, TAG_INSTRUCTIONS_128);
}
