/* Opens a sealed run as its bytes arrive, a few at a time, and puts each of them out at once, as a live display does; or
 * seals a run in the same way, as a recorder does:
 *
 *   display open KEYFILE NUMBER [FROM] <SEALED
 *   display seal KEYFILE NUMBER [FROM] <PLAIN
 *
 * KEYFILE has the bytes of the key, as `head -c 16 /dev/urandom >night.key` makes them: 16 to 32 to seal, and to open as
 * many as the run was sealed with, which may be fewer. NUMBER is that of the run, and FROM the offset of the first byte
 * that arrives, 0 where it is left out: `tail -c +5001 -f night.sealed | display open night.key 7 5000` shows run 7 from
 * byte 5,000 on. No byte of a run is sealed twice: what is sealed from its first byte on again gets another number. */
#define _POSIX_C_SOURCE 200809L
#include "fox.h"

#include <fcntl.h>
#include <stdio.h>
#include <stdlib.h>
#include <string.h>
#include <unistd.h>

enum { CIPHER = FOX128, BLOCK = FOX128_BLOCK, ROUNDS = 16, PIECE = 4096, DONE = 0, TROUBLE = 1 };

static uint64_t session[FOX_SESSION_WORDS];
static uint8_t key[FOX_MOST_KEY + 1], arrived[PIECE], shown[PIECE];

static int complain(const char *name, const char *what)
{
    fprintf(stderr, "display: %s: %s\n", name, what);
    return TROUBLE;
}

/* All of what was sealed or opened, however little is taken at a time. */
static int show(size_t len)
{
    for (size_t at = 0; at < len;) {
        ssize_t written = write(STDOUT_FILENO, shown + at, len - at);
        if (written <= 0)
            return complain("standard output", "cannot be written");
        at += (size_t)written;
    }
    return DONE;
}

/* The start alone says which of the two the session is for: the calls that go on with it are the same. The key's bytes
 * are needed no more once it has started. What the calls leave in the stack is wiped by the function that makes them. */
static int start(int sealing, const char *path, uint32_t number, uint64_t from)
{
    uint8_t counter[BLOCK];
    int file = open(path, O_RDONLY);
    ssize_t key_len = file < 0 ? -1 : read(file, key, sizeof key);
    if (file >= 0)
        close(file);
    if (key_len < 0)
        return complain(path, "cannot be read");
    uint32_t refusal = fox_counter(CIPHER, number, counter, BLOCK);
    if (refusal == FOX_SERVED)
        refusal = (sealing ? fox_session_start_sealing : fox_session_start_opening)(CIPHER, ROUNDS, key, (size_t)key_len,
                                                                                    counter, BLOCK, session);
    if (refusal == FOX_SERVED)
        refusal = fox_session_move(session, from);
    fox_wipe_stack();
    fox_wipe(key, sizeof key);
    return refusal == FOX_SERVED ? DONE : complain(path, fox_refusal_text(refusal));
}

/* As many bytes as have arrived, until no more come. */
static int follow(void)
{
    int status = DONE;
    ssize_t len = 0;
    while (status == DONE && (len = read(STDIN_FILENO, arrived, sizeof arrived)) > 0) {
        uint32_t refusal = fox_session_advance(session, arrived, (size_t)len, shown, (size_t)len);
        status = refusal == FOX_SERVED ? show((size_t)len) : complain("standard input", fox_refusal_text(refusal));
    }
    fox_wipe_stack();
    return len < 0 ? complain("standard input", "cannot be read") : status;
}

/* A number in decimal up to a limit, or one above the limit where the word is none. */
static uint64_t number_in(const char *word, uint64_t most)
{
    char *end;
    unsigned long long number = strtoull(word, &end, 10);
    return word[0] >= '0' && word[0] <= '9' && *end == '\0' && number <= most ? number : most + 1;
}

int main(int count, char **words)
{
    int there = count == 4 || count == 5, sealing = there && strcmp(words[1], "seal") == 0;
    uint64_t number = there ? number_in(words[3], UINT32_MAX) : UINT32_MAX + 1ull;
    uint64_t from = count == 5 ? number_in(words[4], FOX_RUN_END) : 0;
    if (!there || (!sealing && strcmp(words[1], "open") != 0) || number > UINT32_MAX || from > FOX_RUN_END)
        return complain("usage", "display open|seal KEYFILE NUMBER [FROM], the bytes of the run on standard input");
    int status = start(sealing, words[2], (uint32_t)number, from);
    if (status == DONE)
        status = follow();
    fox_wipe(session, sizeof session);
    fox_wipe(arrived, sizeof arrived);
    fox_wipe(shown, sizeof shown);
    return status;
}
