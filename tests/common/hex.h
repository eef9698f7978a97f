/* Bytes as pairs of upper-case hex digits. */
#ifndef COMMON_HEX_H
#define COMMON_HEX_H

#include <stddef.h>
#include <stdint.h>

/* The bytes that `text` names, up to its end or the first byte that is no pair; at most `room` of them. Answers with
 * their number. */
size_t hex_read(const char *text, uint8_t *bytes, size_t room);

/* Whether `text` is nothing but pairs, and no more of them than there is room for; their number is put at `len`. */
int hex_read_all(const char *text, uint8_t *bytes, size_t room, size_t *len);

void hex_print(const uint8_t *bytes, size_t len);

/* Prints a buffer as one more of a call: its name, its length, and its bytes up to the first `most`. */
void hex_show(const char *name, const uint8_t *bytes, size_t len, size_t most);

#endif
