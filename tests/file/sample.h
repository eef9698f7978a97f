/* Run files with all that they were made of. */
#ifndef FILE_SAMPLE_H
#define FILE_SAMPLE_H

#include "file_call.h"

enum { VECTORS = 9, OLD_FILES = 8, SAMPLE_ROOM = 64 };

/* Key and counter have more bytes behind them than their lengths say. */
struct sample {
    uint32_t cipher, rounds;
    uint8_t key[SAMPLE_ROOM], counter[SAMPLE_ROOM];
    size_t key_len, counter_len, scans, data_len, file_len;
    uint64_t *lengths;
    uint8_t *data, *file;
};

/* Those of the folder of vectors, all under keys that seal, and those of a list of old files, which version 0.4.0 of the
 * library has written under keys that are too short for it. */
extern struct sample vectors[VECTORS], old_files[OLD_FILES];

/* One group: reads them. */
void read_samples(const char *folder, const char *old_list);

/* Scans of these lengths, with a key, a counter and data by chance; the file is the second implementation's, by its old
 * writer, so that the key may have any length. */
struct sample make_sample(uint32_t cipher, uint32_t rounds, size_t key_len, const uint64_t *lengths, size_t scans);
void free_sample(struct sample *s);

/* Where the first scan of a right file is. */
size_t header_len(const struct sample *s);

/* A call that is served, whatever its verb, at the file's first scan, which `place` is set to. It has no output and no
 * count yet; the output's length is that of the file. */
struct file_call call_on(const struct sample *s, uint64_t *place);

#endif
