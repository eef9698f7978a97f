/* Seals a file, or opens it, or a stretch of it, by calls of libfox on pieces. `stretch --help` says how it is called;
 * stretch_job.c reads the words of the command. */
#define _POSIX_C_SOURCE 200809L
#define _FILE_OFFSET_BITS 64
#include "fox.h"
#include "stretch_job.h"

#include <errno.h>
#include <fcntl.h>
#include <inttypes.h>
#include <signal.h>
#include <stdio.h>
#include <string.h>
#include <sys/stat.h>
#include <time.h>
#include <unistd.h>

enum { LONG_WORK = 8 << 20, ENDED = -1 };

/* The stretch is from byte `from` to before byte `end` of the file `in`. */
struct work {
    const struct job *job;
    uint64_t from, end;
    int in, out;
    const char *in_name, *out_name;
};

/* The progress line that long work shows on a terminal. */
struct progress {
    int wanted, width;
    double began, next;
};

/* The signal that asks to end, once it has come. */
static volatile sig_atomic_t stopped;

/* A piece as it was read, and as it is written. */
static uint8_t taken[FOX_MOST_DATA], made[FOX_MOST_DATA];

/* The calls of the library, and what they refuse. */

static uint32_t run(const struct job *job, uint64_t offset, const uint8_t *data, size_t len, uint8_t *out)
{
    return (job->sealing ? job->card ? fox_card_seal_run : fox_server_seal_run
                         : job->card ? fox_card_open_run : fox_server_open_run)(
        job->cipher, job->rounds, job->key, job->key_len, job->counter, job->counter_len, offset, data, len, out, len);
}

static int refused(const struct work *w, uint32_t number)
{
    const struct job *job = w->job;
    const char *text = fox_refusal_text(number);
    switch (number) {
    case FOX_REFUSED_CIPHER:
        return complain(TROUBLE, "--cipher is %" PRIu32 " (refusal 1): %s", job->cipher, text);
    case FOX_REFUSED_ROUNDS:
        return complain(TROUBLE, "--rounds is %" PRIu32 " (refusal 2): %s", job->rounds, text);
    case FOX_REFUSED_KEY:
    case FOX_REFUSED_SHORT_KEY:
        return complain(TROUBLE, "the key has %zu bytes (refusal %" PRIu32 "): %s", job->key_len, number, text);
    case FOX_REFUSED_BLOCK:
        return complain(TROUBLE, "--counter has %zu bytes (refusal 4): %s", job->counter_len, text);
    case FOX_REFUSED_END:
        if (job->to_end)
            return complain(TROUBLE, "%s has %" PRIu64 " bytes (refusal 7): %s", w->in_name, w->end, text);
        return complain(TROUBLE, "the stretch ends at byte %" PRIu64 " (refusal 7): %s", w->end, text);
    default:
        return complain(TROUBLE, "refusal %" PRIu32 ": %s", number, text);
    }
}

/* A call on 0 bytes where the stretch ends is refused exactly as some call on its pieces would be, and writes nothing. */
static int check_refusals(const struct work *w)
{
    uint8_t none = 0, nowhere;
    uint32_t number = run(w->job, w->end, &none, 0, &nowhere);
    return number == FOX_SERVED ? DONE : refused(w, number);
}

/* The files. */

static int find_stretch(struct work *w, uint64_t size)
{
    uint64_t from = w->job->from, length = w->job->length;
    if (from > size)
        return complain(TROUBLE, "%s is too short: it has %" PRIu64 " bytes, and --from is %" PRIu64, w->in_name, size, from);
    if (!w->job->to_end && length > size - from)
        return complain(TROUBLE, "%s is too short: it has %" PRIu64 " bytes from byte %" PRIu64 " on, and --length is %" PRIu64,
                        w->in_name, size - from, from, length);
    w->from = from;
    w->end = w->job->to_end ? size : from + length;
    return DONE;
}

/* Opening a pipe would wait for its other end, so the file is opened without waiting. */
static int open_input(struct work *w)
{
    struct stat about;
    w->in_name = w->job->path;
    w->in = open(w->in_name, O_RDONLY | O_NONBLOCK | O_NOCTTY | O_CLOEXEC);
    if (w->in < 0)
        return complain(TROUBLE, "%s cannot be opened: %s", w->in_name, strerror(errno));
    if (fstat(w->in, &about) != 0)
        return complain(TROUBLE, "%s cannot be looked at: %s", w->in_name, strerror(errno));
    if (S_ISDIR(about.st_mode))
        return complain(TROUBLE, "%s is a directory, and should be a file", w->in_name);
    off_t size = lseek(w->in, 0, SEEK_END);
    if (size < 0 || !(S_ISREG(about.st_mode) || S_ISBLK(about.st_mode)))
        return complain(TROUBLE, "%s is a pipe or device, which has no byte to go to: copy it to a file first", w->in_name);
    return find_stretch(w, (uint64_t)size);
}

/* Whether both are one file on a disk. */
static int one_file(int in, int out)
{
    struct stat a, b;
    return fstat(in, &a) == 0 && fstat(out, &b) == 0 && S_ISREG(b.st_mode) && a.st_dev == b.st_dev && a.st_ino == b.st_ino;
}

/* A file of its own, which others can read only if they can read what it is made from. A file that is there is not written
 * over, be it the file that is read, the key's, or the last that there is of a sample. */
static int make_output(struct work *w)
{
    struct stat in, there;
    mode_t mode = fstat(w->in, &in) == 0 && S_ISREG(in.st_mode) ? (in.st_mode & 0666) | 0600 : 0666;
    w->out_name = w->job->output;
    w->out = open(w->out_name, O_WRONLY | O_CREAT | O_EXCL | O_NOCTTY | O_CLOEXEC, mode);
    if (w->out < 0 && errno == EEXIST) {
        if (stat(w->out_name, &there) != 0 || S_ISREG(there.st_mode))
            return complain(TROUBLE, "%s is there already: name another file, or remove it first", w->out_name);
        w->out = open(w->out_name, O_WRONLY | O_NOCTTY | O_CLOEXEC);
    }
    if (w->out < 0)
        return complain(TROUBLE, "%s cannot be opened for writing: %s", w->out_name, strerror(errno));
    return DONE;
}

static int open_output(struct work *w)
{
    w->out = STDOUT_FILENO, w->out_name = "standard output";
    if (w->job->output != NULL)
        return make_output(w);
    if (one_file(w->in, w->out))
        return complain(TROUBLE, "standard output is the file that is read, %s, and should be another", w->in_name);
    return DONE;
}

static int not_written(const struct work *w, int error)
{
    return complain(TROUBLE, "%s cannot be written: %s", w->out_name, strerror(error));
}

/* A regular file that is not whole is taken away, so that it is not taken for the whole. */
static int close_output(const struct work *w, int status)
{
    struct stat about;
    int regular = fstat(w->out, &about) == 0 && S_ISREG(about.st_mode);
    if (close(w->out) != 0 && status == DONE)
        status = not_written(w, errno);
    if (status != DONE && regular && w->job->output != NULL && unlink(w->out_name) != 0)
        complain(TROUBLE, "%s is not whole, and cannot be removed: %s", w->out_name, strerror(errno));
    return status;
}

/* Signals that ask to end: the piece at hand is given up, and all is left as after any other trouble. One that is ignored
 * stays so. */
static void stop_at(int number)
{
    stopped = number;
}

static void catch_signals(void)
{
    static const int numbers[] = {SIGHUP, SIGINT, SIGQUIT, SIGTERM};
    struct sigaction action = {.sa_handler = stop_at}, before;
    for (size_t i = 0; i < sizeof numbers / sizeof *numbers; i++)
        if (sigaction(numbers[i], NULL, &before) == 0 && before.sa_handler != SIG_IGN)
            sigaction(numbers[i], &action, NULL);
}

static double seconds(void)
{
    struct timespec now;
    clock_gettime(CLOCK_MONOTONIC, &now);
    return (double)now.tv_sec + (double)now.tv_nsec / 1e9;
}

/* Where the bytes go to the terminal too, a progress line would stand among them. */
static struct progress begin_progress(const struct work *w)
{
    double now = seconds();
    return (struct progress){.wanted = isatty(STDERR_FILENO) && !isatty(w->out), .began = now, .next = now};
}

static void show_progress(struct progress *p, uint64_t done, uint64_t all)
{
    double now = seconds(), mib = 1 << 20;
    if (!p->wanted || now < p->next || (all < LONG_WORK && now < p->began + 1))
        return;
    int width = fprintf(stderr, "\rstretch: %.1f of %.1f MiB, %d %%", (double)done / mib, (double)all / mib,
                        (int)(done * 100 / all));
    p->width = width > p->width ? width : p->width;
    p->next = now + 0.2;
}

static void clear_progress(struct progress *p)
{
    if (p->width > 0)
        fprintf(stderr, "\r%*s\r", p->width - 1, "");
    p->width = 0;
}

/* 0 for a piece read whole, ENDED, or the number of the error. */
static int read_whole(int file, uint8_t *bytes, size_t len, uint64_t at)
{
    for (size_t had = 0; had < len;) {
        ssize_t more = pread(file, bytes + had, len - had, (off_t)(at + had));
        if (more == 0)
            return ENDED;
        if (more < 0 && (errno != EINTR || stopped))
            return errno;
        had += more > 0 ? (size_t)more : 0;
    }
    return 0;
}

/* 0 for a piece written whole, or the number of the error. */
static int write_whole(int file, const uint8_t *bytes, size_t len)
{
    for (size_t had = 0; had < len;) {
        ssize_t more = write(file, bytes + had, len - had);
        if (more < 0 && (errno != EINTR || stopped))
            return errno;
        had += more > 0 ? (size_t)more : 0;
    }
    return 0;
}

static int not_read(const struct work *w, int error)
{
    if (error == ENDED)
        return complain(TROUBLE, "%s became shorter while it was read", w->in_name);
    return complain(TROUBLE, "%s cannot be read: %s", w->in_name, strerror(error));
}

/* A signal is said by main, which ends the program by it. */
static int one_piece(const struct work *w, uint64_t at, size_t len, struct progress *p)
{
    uint32_t number = FOX_SERVED;
    int not_taken = read_whole(w->in, taken, len, at), not_given = 0;
    if (not_taken == 0)
        number = run(w->job, at, taken, len, made);
    if (not_taken == 0 && number == FOX_SERVED)
        not_given = write_whole(w->out, made, len);
    if (not_taken == 0 && number == FOX_SERVED && not_given == 0 && !stopped)
        return DONE;
    clear_progress(p);
    if (stopped)
        return TROUBLE;
    return not_taken != 0 ? not_read(w, not_taken) : number != FOX_SERVED ? refused(w, number) : not_written(w, not_given);
}

/* A file that is still written to would be sealed without its end. */
static int check_end(const struct work *w)
{
    off_t size = lseek(w->in, 0, SEEK_END);
    if (w->job->to_end && size >= 0 && (uint64_t)size > w->end)
        return complain(TROUBLE, "%s became longer while it was read", w->in_name);
    return DONE;
}

/* Pieces end at multiples of FOX_MOST_DATA in the file, whatever the first byte is. */
static int all_pieces(const struct work *w)
{
    struct progress progress = begin_progress(w);
    int status = DONE;
    for (uint64_t at = w->from, next; status == DONE && at < w->end; at = next) {
        next = (at / FOX_MOST_DATA + 1) * FOX_MOST_DATA;
        next = next < w->end ? next : w->end;
        show_progress(&progress, at - w->from, w->end - w->from);
        status = one_piece(w, at, (size_t)(next - at), &progress);
    }
    clear_progress(&progress);
    return status == DONE ? check_end(w) : status;
}

static int do_job(const struct job *job)
{
    struct work w = {.job = job};
    int status = open_input(&w);
    if (status == DONE)
        status = check_refusals(&w);
    catch_signals();
    if (status == DONE)
        status = open_output(&w);
    if (status == DONE)
        status = close_output(&w, all_pieces(&w));
    return status;
}

/* A standard stream that is closed is held by one that fails, or the next file that is opened would take its place. */
static void hold_streams(void)
{
    for (int place = STDIN_FILENO; place <= STDERR_FILENO; place++)
        if (fcntl(place, F_GETFD) < 0 && open("/dev/null", place == STDIN_FILENO ? O_WRONLY : O_RDONLY) != place)
            _exit(TROUBLE);
}

static int say(const char *text)
{
    if (fputs(text, stdout) >= 0 && fflush(stdout) == 0)
        return DONE;
    return complain(TROUBLE, "standard output cannot be written: %s", strerror(errno));
}

int main(int count, char **words)
{
    struct job job;
    hold_streams();
    /* A reader that goes away, or a file that may not grow, shows as an error of write, which has a message. */
    signal(SIGPIPE, SIG_IGN);
    signal(SIGXFSZ, SIG_IGN);
    int status = read_words(count - 1, words + 1, &job);
    if (status == DONE)
        status = job.told != NULL ? say(job.told) : do_job(&job);
    fox_wipe(&job, sizeof job);
    fox_wipe(taken, sizeof taken);
    fox_wipe(made, sizeof made);
    fox_wipe_stack();
    if (stopped) {
        signal(stopped, SIG_DFL);
        raise(stopped);
    }
    return status;
}
