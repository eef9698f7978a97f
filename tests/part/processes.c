/* Every part of a block in a process of its own, which gets the setting and what is kept, and nothing else: each is forked
 * from one that was forked before the first call, and has made none itself. */
#define _GNU_SOURCE
#include "chance.h"
#include "groups.h"
#include "tally.h"
#include "try.h"

#include <signal.h>
#include <stdio.h>
#include <stdlib.h>
#include <string.h>
#include <sys/wait.h>
#include <unistd.h>

struct request {
    struct setting setting;
    struct kept kept;
    uint32_t until;
};

struct reply {
    uint64_t answer;
    uint8_t out[FOX128_BLOCK];
};

/* The process that makes no call, and the ends of pipes to it and from it. */
static pid_t first;
static int to_first, from_first;

static int take(int from, void *bytes, size_t len)
{
    for (size_t at = 0; at < len;) {
        ssize_t count = read(from, (uint8_t *)bytes + at, len - at);
        if (count <= 0)
            return 0;
        at += (size_t)count;
    }
    return 1;
}

/* What is written here is short enough for a pipe to take it at once. */
static int give(int to, const void *bytes, size_t len)
{
    return write(to, bytes, len) == (ssize_t)len;
}

static int do_part(const struct request *q, int to)
{
    struct reply r = {0, {0}};
    const struct setting *s = &q->setting;
    r.answer = fox_probe_part(s->sealing, s->cipher, s->rounds, s->key, s->key_len, q->kept.done, q->until, q->kept.reg,
                              q->kept.state, s->block_len, r.out, s->block_len);
    return give(to, &r, sizeof r);
}

/* A child for each request, whose reply is NO_ANSWER where it does not end well. */
static void serve(int from, int to)
{
    struct request q;
    const struct reply none = {NO_ANSWER, {0}};
    while (take(from, &q, sizeof q)) {
        int status = 1;
        pid_t child = fork();
        if (child == 0)
            _exit(!do_part(&q, to));
        if ((child < 0 || waitpid(child, &status, 0) != child || status != 0) && !give(to, &none, sizeof none))
            return;
    }
}

void begin_processes(void)
{
    int there[2], back[2];
    if (pipe(there) != 0 || pipe(back) != 0 || (first = fork()) < 0)
        abort();
    if (first == 0) {
        close(there[1]);
        close(back[0]);
        serve(there[0], back[1]);
        _exit(0);
    }
    signal(SIGPIPE, SIG_IGN);
    close(there[0]);
    close(back[1]);
    to_first = there[1], from_first = back[0];
}

/* As go_on does, in another process. */
static void go_on_elsewhere(const struct setting *s, struct kept *k, uint32_t until)
{
    const struct request q = {*s, *k, until};
    struct reply r = {NO_ANSWER, {0}};
    uint8_t right[FOX128_BLOCK];
    const struct part_call c = call_on(s, k, until);
    uint64_t answer = right_part(&c, right);
    int came = give(to_first, &q, sizeof q) && take(from_first, &r, sizeof r);
    case_of(&c, came && r.answer == answer && memcmp(r.out, right, s->block_len) == 0,
            "another process goes on otherwise, or has come to no end");
    k->reg = (uint32_t)r.answer;
    memcpy(k->state, r.out, s->block_len);
    k->done = until;
}

void other_processes(void)
{
    enum { TIMES = 40 };
    group_begin("every part of a block in a process of its own");
    for (uint32_t i = 0; i < TIMES; i++) {
        const struct setting s = some_setting(i % 2, i % 4 < 2 ? FOX64 : FOX128);
        const struct second_stops *stops = stops_of(&s);
        struct kept k = begun(&s);
        while (k.done < s.rounds) {
            go_on_elsewhere(&s, &k, k.done + 1 + (uint32_t)below(8));
            same_stop(&s, &k, stops, k.done);
        }
    }
    close(to_first);
    int status = 1;
    if (case_wrong(waitpid(first, &status, 0) == first && status == 0))
        printf("the process that began them did not end well\n");
    group_end();
}
