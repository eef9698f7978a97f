/* Signals of a fault, caught on a stack of their own. */
#define _GNU_SOURCE
#include "faults.h"
#include "count.h"
#include "tally.h"

#include <setjmp.h>
#include <signal.h>
#include <stdio.h>

static sigjmp_buf before_call;
static volatile sig_atomic_t calling;
static const uint8_t *volatile place;

static void on_fault(int number, siginfo_t *info, void *context)
{
    (void)context;
    if (!calling) {
        printf("%s: a fault outside a call, signal %d\n", group_name(), number);
        fflush(stdout);
        signal(number, SIG_DFL);
        raise(number);
        return;
    }
    calling = 0;
    place = info->si_addr;
    siglongjmp(before_call, 1);
}

void catch_faults(void)
{
    static uint8_t stack[1 << 16];
    static const int faults[] = {SIGSEGV, SIGBUS, SIGILL, SIGFPE, SIGTRAP, SIGABRT};
    stack_t other = {.ss_sp = stack, .ss_size = sizeof stack};
    struct sigaction action = {.sa_sigaction = on_fault, .sa_flags = SA_SIGINFO | SA_ONSTACK | SA_NODEFER};
    sigaltstack(&other, NULL);
    for (size_t i = 0; i < COUNT(faults); i++)
        sigaction(faults[i], &action, NULL);
}

int work_faults(void (*work)(void *given), void *given)
{
    if (sigsetjmp(before_call, 0) != 0)
        return 1;
    calling = 1;
    work(given);
    calling = 0;
    return 0;
}

struct made {
    const struct engine *engine;
    enum verb verb;
    const struct call *call;
    uint32_t answer;
};

static void make(void *given)
{
    struct made *m = given;
    m->answer = make_call(m->engine, m->verb, m->call);
}

uint32_t make_caught(const struct engine *engine, enum verb verb, const struct call *c)
{
    struct made m = {engine, verb, c, FAULTED};
    return work_faults(make, &m) ? FAULTED : m.answer;
}

const uint8_t *fault_place(void)
{
    return place;
}
