/* The run file (02, orders 4 and 7) by the second implementation, for every place in a file, also one that a caller made
 * up. A place is three numbers: the next scan's first line, the scans passed, and where the next scan's bytes stand in
 * the run. */
#ifndef SECOND_FILE_H
#define SECOND_FILE_H

#include <stddef.h>
#include <stdint.h>

enum { PLACE_WORDS = 3 };

/* What comes next at the end. */
#define NO_SCAN UINT64_MAX

uint32_t second_file_size(uint32_t cipher, uint32_t rounds, const uint64_t *lengths, size_t scans, uint64_t *count);

uint32_t second_file_write(uint32_t cipher, uint32_t rounds, const uint8_t *key, size_t key_len, const uint8_t *counter,
                           size_t counter_len, const uint8_t *data, size_t data_len, const uint64_t *lengths,
                           size_t scans, uint8_t *out, size_t out_len, uint64_t *count);

/* A writer that serves short keys too, as one from before order 7: what it has written is still to be read. */
uint32_t second_old_file_write(uint32_t cipher, uint32_t rounds, const uint8_t *key, size_t key_len,
                               const uint8_t *counter, size_t counter_len, const uint8_t *data, size_t data_len,
                               const uint64_t *lengths, size_t scans, uint8_t *out, size_t out_len, uint64_t *count);

uint32_t second_file_take_up(uint32_t cipher, uint32_t rounds, const uint8_t *key, size_t key_len, const uint8_t *file,
                             size_t file_len, uint64_t *place);

/* The length of the next scan, or NO_SCAN. */
uint64_t second_file_next(const uint8_t *file, size_t file_len, const uint64_t *place);

uint32_t second_file_read(uint32_t cipher, uint32_t rounds, const uint8_t *key, size_t key_len, const uint8_t *file,
                          size_t file_len, uint64_t *place, uint8_t *out, size_t out_len, uint64_t *count);

void second_file_skip(const uint8_t *file, size_t file_len, uint64_t *place);

#endif
