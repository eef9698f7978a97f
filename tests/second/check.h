/* What the parts of the self-check have in common: cases that compare, rows of a file, and the groups about stopped
 * blocks, sessions, tags and run files, which vectors.c calls. */
#ifndef SECOND_CHECK_H
#define SECOND_CHECK_H

#include <stddef.h>
#include <stdint.h>

enum { MOST_ROW = 2048 };

void same_bytes(const uint8_t *found, const uint8_t *expected, size_t len, const char *what);
void same_number(uint32_t found, uint32_t expected, const char *what);

/* What sealing with a key that opens answers: 13 for one of fewer than 16 bytes, and 0 for all others. */
uint32_t seal_answer(size_t key_len);

/* The decimal number in a field. */
uint32_t number(const char *text);

/* One group: each row of the file, cut at its commas. `expected` is the number of rows, so that a file cut short is
 * noticed; the row that names the fields is not counted. */
void rows(const char *path, size_t width, uint32_t expected, void (*check_row)(char **fields));

/* part_vectors.c; the path is that of the rows of blocks. */
void check_parts(const char *path);

/* session_vectors.c; the path is that of the rows of runs. */
void check_sessions(const char *path);

/* tag_vectors.c; the path is that of the rows of tags. */
void check_tags(const char *path);

/* file_vectors.c; the path is that of a folder of run files, with LIST.csv, which says what is in them. */
void check_files(const char *path);

#endif
