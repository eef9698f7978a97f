/* The text of a run file, to be changed. */
#ifndef FILE_TEXT_H
#define FILE_TEXT_H

#include "rooms.h"
#include "sample.h"
#include "tally.h"

struct text {
    size_t len;
    uint8_t bytes[MOST_ROOM];
};

void text_set(struct text *t, const uint8_t *bytes, size_t len);
void text_add(struct text *t, const void *bytes, size_t len);
LIKE_PRINTF(2, 3) void text_print(struct text *t, const char *format, ...);

/* The bytes from a place on, so many of them, become others. */
void text_change(struct text *t, size_t at, size_t len, const void *bytes, size_t new_len);

/* The same where a text first stands; answers whether it does. */
int text_replace(struct text *t, const char *from, const char *to);

/* The tag in the last line `close` is made anew, over all that comes before the line. Nothing where there is none. */
void text_close(struct text *t, const struct sample *s);

/* Adds the line `close`. */
void text_add_close(struct text *t, const struct sample *s);

/* The call with the text as its file. */
struct file_call call_with(const struct text *t, const struct sample *s, uint64_t *place);

#endif
