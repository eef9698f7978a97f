/* A child that makes the calls is run one instruction at a time. */
#define _GNU_SOURCE
#include "trace.h"

#include <elf.h>
#include <signal.h>
#include <stdio.h>
#include <sys/ptrace.h>
#include <sys/uio.h>
#include <sys/user.h>
#include <sys/wait.h>
#include <unistd.h>

/* 0 where the child's registers cannot be read. */
static uint64_t instruction_of(pid_t child)
{
    struct user_regs_struct registers;
    struct iovec room = {&registers, sizeof registers};
    if (ptrace(PTRACE_GETREGSET, child, (void *)NT_PRSTATUS, &room) != 0)
        return 0;
#ifdef __aarch64__
    return registers.pc;
#else
    return registers.rip;
#endif
}

/* A child that has stopped before its calls, of which there are none where `plan` is NULL; -1 where there is no such. */
static pid_t stopped_child(const struct engine *engine, const struct plan *plan)
{
    int status;
    fflush(stdout);
    pid_t child = fork();
    if (child == 0) {
        if (ptrace(PTRACE_TRACEME, 0, NULL, NULL) != 0)
            _exit(1);
        raise(SIGSTOP);
        _exit(plan != NULL && make_calls(engine, plan) > 0);
    }
    if (child < 0 || waitpid(child, &status, 0) != child || !WIFSTOPPED(status))
        return -1;
    return child;
}

/* Whether the child went on by one instruction, and has not ended. Signals from elsewhere are passed on to it. */
static int stepped(pid_t child)
{
    long signal = 0;
    do {
        int status;
        if (ptrace(PTRACE_SINGLESTEP, child, NULL, (void *)signal) != 0 || waitpid(child, &status, 0) != child ||
            !WIFSTOPPED(status))
            return 0;
        signal = WSTOPSIG(status) == SIGTRAP ? 0 : WSTOPSIG(status);
    } while (signal != 0);
    return 1;
}

/* Where the child ends early, its trace is cut short. */
static void end_child(pid_t child)
{
    int status;
    kill(child, SIGKILL);
    waitpid(child, &status, 0);
}

int can_step(void)
{
    pid_t child = stopped_child(NULL, NULL);
    int can = child > 0 && stepped(child) && instruction_of(child) != 0;
    if (child > 0)
        end_child(child);
    return can;
}

void step_through(const struct engine *engine, const struct plan *plan)
{
    pid_t child = stopped_child(engine, plan);
    if (child < 0)
        return;
    do
        saw('I', instruction_of(child), 0);
    while (stepped(child));
    end_child(child);
}
