/* Another program, started by fork and exec over two pipes, which are polled together so that neither side waits for
 * the other for ever. */
#define _GNU_SOURCE
#include "program.h"

#include <errno.h>
#include <fcntl.h>
#include <poll.h>
#include <signal.h>
#include <string.h>
#include <sys/wait.h>
#include <time.h>
#include <unistd.h>

enum { MOST_SECONDS = 30 };

/* What is still to be written, and where. `to` is -1 once all is written, or the program reads no more. */
struct feed {
    int to;
    const uint8_t *text;
    size_t len;
    struct feeding how;
};

/* A program that stops reading early is none of this program's trouble. */
void program_prepare(void)
{
    signal(SIGPIPE, SIG_IGN);
}

static void sleep_ms(int ms)
{
    struct timespec t = {ms / 1000, ms % 1000 * 1000000L};
    nanosleep(&t, NULL);
}

static void end_feed(struct feed *f)
{
    close(f->to);
    f->to = -1;
}

static void write_piece(struct feed *f)
{
    size_t piece = f->how.piece != 0 && f->how.piece < f->len ? f->how.piece : f->len;
    ssize_t written = write(f->to, f->text, piece);
    if (written < 0) {
        if (errno != EAGAIN && errno != EINTR)
            end_feed(f);
        return;
    }
    f->text += written;
    f->len -= (size_t)written;
    if (f->len == 0)
        end_feed(f);
    else if (f->how.pause_ms > 0)
        sleep_ms(f->how.pause_ms);
}

/* Answers with 0 at the end of what is printed. */
static int read_piece(int from, struct printed *p)
{
    uint8_t piece[MOST_PRINTED];
    ssize_t got = read(from, piece, sizeof piece);
    if (got <= 0)
        return 0;
    size_t room = p->len < MOST_PRINTED ? MOST_PRINTED - p->len : 0;
    memcpy(p->bytes + (MOST_PRINTED - room), piece, (size_t)got < room ? (size_t)got : room);
    p->len += (size_t)got;
    return 1;
}

/* Answers with 0 where the program was too slow. */
static int exchange(struct feed *f, int from, struct printed *p, time_t until)
{
    for (int reading = 1; reading;) {
        struct pollfd ends[2] = {{from, POLLIN, 0}, {f->to, POLLOUT, 0}};
        if (poll(ends, 2, 1000) < 0 || time(NULL) > until)
            return 0;
        if (ends[1].revents != 0)
            write_piece(f);
        if (ends[0].revents != 0)
            reading = read_piece(from, p);
    }
    return 1;
}

static void wait_for(pid_t child, struct printed *p, time_t until)
{
    int status = 0;
    while (!p->late && waitpid(child, &status, WNOHANG) == 0) {
        p->late = time(NULL) > until;
        sleep_ms(1);
    }
    if (p->late) {
        kill(child, SIGKILL);
        waitpid(child, &status, 0);
    }
    p->ended = !p->late && WIFEXITED(status);
}

static void become(char *const *command, int in, int out)
{
    signal(SIGPIPE, SIG_DFL);
    if (dup2(in, 0) == 0 && dup2(out, 1) == 1)
        execvp(command[0], command);
    _exit(127);
}

int program_run(char *const *command, const uint8_t *text, size_t len, struct feeding how, struct printed *p)
{
    int in[2], out[2];
    time_t until = time(NULL) + MOST_SECONDS;
    memset(p, 0, sizeof *p);
    if (pipe2(in, O_CLOEXEC) != 0 || pipe2(out, O_CLOEXEC) != 0)
        return 0;
    pid_t child = fork();
    if (child < 0)
        return 0;
    if (child == 0)
        become(command, in[0], out[1]);
    close(in[0]);
    close(out[1]);
    fcntl(in[1], F_SETFL, O_NONBLOCK);
    struct feed f = {in[1], text, len, how};
    if (len == 0)
        end_feed(&f);
    p->late = !exchange(&f, out[0], p, until);
    if (f.to >= 0)
        end_feed(&f);
    close(out[0]);
    wait_for(child, p, until);
    return 1;
}
