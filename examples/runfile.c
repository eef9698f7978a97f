/* Writes a run file whose scans are the bytes of some files, and opens one scan of it alone:
 *
 *   runfile write KEYFILE NUMBER FILE SCAN..   the file FILE, a run of this number, from the files SCAN..
 *   runfile read KEYFILE FILE NUMBER           the scan of this number, on standard output
 *
 * KEYFILE has the bytes of the key, as `head -c 16 /dev/urandom >night.key` makes them: 16 to 32 to write, and to read
 * those that the file was written with, which may be fewer. No two files under one key get the same number, and none
 * gets 0. */
#include "fox.h"

#include <stdio.h>
#include <stdlib.h>
#include <string.h>

enum { CIPHER = FOX128, BLOCK = FOX128_BLOCK, ROUNDS = 16, DONE = 0, TROUBLE = 1 };

static uint8_t key[FOX_MOST_KEY + 1], scan[FOX_MOST_SCAN];
static size_t key_len;

static int complain(const char *name, const char *what)
{
    fprintf(stderr, "runfile: %s: %s\n", name, what);
    return TROUBLE;
}

/* The calls of the library. Each function that makes some wipes what they leave in the stack. */

static int write_file(const char *path, uint32_t number, const uint8_t *data, size_t data_len, const uint64_t *lengths,
                      size_t scans)
{
    uint8_t counter[BLOCK], *bytes = NULL;
    uint64_t size = 0;
    uint32_t refusal = fox_counter(CIPHER, number, counter, BLOCK);
    if (refusal == FOX_SERVED)
        refusal = fox_file_size(CIPHER, ROUNDS, lengths, scans, &size);
    if (refusal == FOX_SERVED && (bytes = malloc((size_t)size)) == NULL)
        return complain(path, "there is no memory for it");
    if (refusal == FOX_SERVED)
        refusal = fox_file_write(CIPHER, ROUNDS, key, key_len, counter, BLOCK, data, data_len, lengths, scans, bytes,
                                 (size_t)size, &size);
    fox_wipe_stack();
    FILE *file = refusal == FOX_SERVED ? fopen(path, "wbx") : NULL;
    int written = file != NULL && fwrite(bytes, 1, (size_t)size, file) == size;
    written = file != NULL && fclose(file) == 0 && written;
    free(bytes);
    if (refusal != FOX_SERVED)
        return complain(path, fox_refusal_text(refusal));
    return written ? DONE : complain(path, "is there already, or cannot be written");
}

/* The whole file is looked at when it is taken up; of its scans only the one that is asked for is opened. */
static int read_scan(const char *path, const uint8_t *file, size_t len, uint64_t number)
{
    uint64_t place[FOX_PLACE_WORDS], length = 0, count = 0;
    uint32_t refusal = fox_file_take_up(CIPHER, ROUNDS, key, key_len, file, len, place);
    if (refusal == FOX_SERVED) {
        for (uint64_t i = 1; i < number; i++)
            fox_file_skip(file, len, place);
        length = fox_file_next_length(file, len, place);
        if (length != FOX_NO_SCAN)
            refusal = fox_file_read(CIPHER, ROUNDS, key, key_len, file, len, place, scan, (size_t)length, &count);
    }
    fox_wipe_stack();
    if (refusal != FOX_SERVED)
        return complain(path, fox_refusal_text(refusal));
    if (length == FOX_NO_SCAN)
        return complain(path, "has no scan of this number");
    int written = fwrite(scan, 1, (size_t)count, stdout) == count && fflush(stdout) == 0;
    fox_wipe(scan, sizeof scan);
    return written ? DONE : complain(path, "a scan of it cannot be put out");
}

/* The files. None is read through a buffer, in which a key or plain bytes would stay. */

static FILE *open_file(const char *path, size_t *len)
{
    FILE *file = fopen(path, "rb");
    long size = file != NULL && setvbuf(file, NULL, _IONBF, 0) == 0 && fseek(file, 0, SEEK_END) == 0 ? ftell(file) : -1;
    if (size >= 0) {
        rewind(file);
        *len = (size_t)size;
        return file;
    }
    if (file != NULL)
        fclose(file);
    complain(path, "cannot be opened");
    return NULL;
}

static int read_bytes(const char *path, uint8_t *bytes, size_t len)
{
    size_t size;
    FILE *file = open_file(path, &size);
    if (file == NULL)
        return TROUBLE;
    int read = size == len && fread(bytes, 1, len, file) == len;
    fclose(file);
    return read ? DONE : complain(path, "cannot be read");
}

static int length_of(const char *path, size_t *len)
{
    FILE *file = open_file(path, len);
    return file == NULL ? TROUBLE : fclose(file) == 0 ? DONE : complain(path, "cannot be read");
}

static int read_key(const char *path)
{
    if (length_of(path, &key_len) != DONE)
        return TROUBLE;
    return key_len > FOX_MOST_KEY ? complain(path, fox_refusal_text(FOX_REFUSED_KEY)) : read_bytes(path, key, key_len);
}

static int run_write(const char *path, uint32_t number, char **names, size_t scans)
{
    uint64_t *lengths = malloc((scans + 1) * sizeof *lengths);
    size_t len, total = 0;
    int status = lengths == NULL ? complain(path, "there is no memory") : DONE;
    for (size_t i = 0; i < scans && status == DONE; i++)
        if ((status = length_of(names[i], &len)) == DONE)
            total += (size_t)(lengths[i] = len);
    uint8_t *data = status == DONE ? malloc(total + 1) : NULL, *at = data;
    if (status == DONE && data == NULL)
        status = complain(path, "there is no memory");
    for (size_t i = 0; i < scans && status == DONE; at += lengths[i], i++)
        status = read_bytes(names[i], at, (size_t)lengths[i]);
    if (status == DONE)
        status = write_file(path, number, data, total, lengths, scans);
    if (data != NULL)
        fox_wipe(data, total);
    free(data);
    free(lengths);
    return status;
}

static int run_read(const char *path, uint64_t number)
{
    size_t len;
    uint8_t *bytes = length_of(path, &len) == DONE ? malloc(len + 1) : NULL;
    int status = bytes == NULL ? TROUBLE : read_bytes(path, bytes, len);
    if (status == DONE)
        status = read_scan(path, bytes, len, number);
    free(bytes);
    return status;
}

/* A number in decimal, from 1 up to a limit, or 0. */
static uint64_t number_in(const char *word, uint64_t most)
{
    char *end;
    unsigned long long number = strtoull(word, &end, 10);
    return word[0] >= '0' && word[0] <= '9' && *end == '\0' && number <= most ? number : 0;
}

int main(int count, char **words)
{
    int writing = count >= 5 && strcmp(words[1], "write") == 0, reading = count == 5 && strcmp(words[1], "read") == 0;
    uint64_t number = writing ? number_in(words[3], UINT32_MAX) : reading ? number_in(words[4], FOX_MOST_SCANS) : 0;
    if (number == 0)
        return complain("usage", "runfile write KEYFILE NUMBER FILE SCAN.., or runfile read KEYFILE FILE NUMBER");
    int status = read_key(words[2]);
    if (status == DONE && writing)
        status = run_write(words[4], (uint32_t)number, words + 5, (size_t)count - 5);
    else if (status == DONE)
        status = run_read(words[3], number);
    fox_wipe(key, sizeof key);
    return status;
}
