/* Another program, started for one text on its standard input, and what it prints. */
#ifndef SHEETS_PROGRAM_H
#define SHEETS_PROGRAM_H

#include <stddef.h>
#include <stdint.h>

enum { MOST_PRINTED = 4096 };

/* How the text arrives: in pieces of `piece` bytes, with a pause after each; a piece of 0 is the whole text. */
struct feeding {
    size_t piece;
    int pause_ms;
};

/* `len` is how much was printed, though no more than MOST_PRINTED bytes of it are kept. `late` says that the program
 * took too long, and `ended` that it ended by itself, neither late nor by a signal. */
struct printed {
    uint8_t bytes[MOST_PRINTED];
    size_t len;
    int late, ended;
};

/* Called once, before the first program is started. */
void program_prepare(void);

/* `command` ends in NULL. Answers with 0 where the program could not be started. */
int program_run(char *const *command, const uint8_t *text, size_t len, struct feeding how, struct printed *p);

#endif
