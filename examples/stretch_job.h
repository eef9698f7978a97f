/* What stretch is asked to do, read off the words of its command, and how it says what is wrong. */
#ifndef STRETCH_JOB_H
#define STRETCH_JOB_H

#include <stddef.h>
#include <stdint.h>

/* The exit statuses. */
enum { DONE = 0, TROUBLE = 1, WRONG_WORDS = 2 };

/* Longer than any key or counter block, so that it is the library that refuses those that are too long. */
enum { MOST_BYTES = 128 };

struct job {
    int sealing, card;
    const char *told; /* a text to print, in the place of any work: --help's, or the version */
    uint32_t cipher, rounds;
    uint8_t key[MOST_BYTES], counter[MOST_BYTES];
    size_t key_len, counter_len;
    uint64_t from, length;
    int to_end;
    const char *path, *output;
};

/* Prints one line to standard error, and answers with the status. */
__attribute__((format(printf, 2, 3)))
int complain(int status, const char *format, ...);

/* The words after the program's name. DONE, or the exit status of what was said. A key among the words is wiped there. */
int read_words(int count, char **words, struct job *job);

#endif
