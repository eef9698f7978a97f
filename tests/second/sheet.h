/* What the bench program prints, worked out from its sheet by the second implementation. */
#ifndef SECOND_SHEET_H
#define SECOND_SHEET_H

#include <stddef.h>
#include <stdint.h>

enum { MOST_ANSWER = 128 };

/* Writes every byte of the standard output for this standard input, and answers with their number, which is at most
 * MOST_ANSWER. Where `room` is less than that nothing is written, and the answer is 0. */
size_t second_sheet(const uint8_t *sheet, size_t len, char *answer, size_t room);

#endif
