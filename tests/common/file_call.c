/* What the calls on run files have, and one of them shown. */
#include "file_call.h"
#include "hex.h"

#include <inttypes.h>
#include <stdio.h>

enum { SHOWN = 512, SHOWN_LENGTHS = 16 };

const struct file_verb_kind file_verbs[FILE_VERBS] = {
    [FILE_SIZE] = {"file_size", HAS_SCANS | HAS_COUNT},
    [FILE_WRITE] = {"file_write", HAS_KEY | HAS_SCANS | HAS_DATA | HAS_OUT | HAS_COUNT},
    [FILE_TAKE_UP] = {"file_take_up", HAS_KEY | HAS_FILE | HAS_PLACE},
    [FILE_NEXT] = {"file_next_length", HAS_FILE | HAS_PLACE},
    [FILE_READ] = {"file_read", HAS_KEY | HAS_FILE | HAS_PLACE | HAS_OUT | HAS_COUNT},
    [FILE_SKIP] = {"file_skip", HAS_FILE | HAS_PLACE},
};

/* A file as its text, where all bytes but letters, digits, `=` and line feeds stand as hex digits. */
static void show_file(const uint8_t *bytes, size_t len)
{
    printf(", file of %zu bytes \"", len);
    for (size_t i = 0; i < len && i < SHOWN; i++)
        if (bytes[i] == '\n')
            printf("\\n");
        else if (bytes[i] >= '0' && bytes[i] <= 'z' && bytes[i] != '\\')
            putchar(bytes[i]);
        else
            printf("\\%02X", bytes[i]);
    printf("%s\"", len > SHOWN ? ".." : "");
}

static void show_lengths(const uint64_t *lengths, size_t scans)
{
    printf(", %zu scans of", scans);
    for (size_t i = 0; i < scans && i < SHOWN_LENGTHS; i++)
        printf(" %" PRIu64, lengths[i]);
    printf("%s bytes", scans > SHOWN_LENGTHS ? " .." : "");
}

void show_file_call(enum file_verb verb, const struct file_call *c)
{
    unsigned has = file_verbs[verb].has;
    printf("fox_%s: cipher %" PRIu32 ", rounds %" PRIu32, file_verbs[verb].name, c->cipher, c->rounds);
    if (has & HAS_KEY)
        hex_show("key", c->key, c->key_len, SHOWN);
    if (has & HAS_DATA) {
        hex_show("counter", c->counter, c->counter_len, SHOWN);
        hex_show("data", c->data, c->data_len, SHOWN);
    }
    if (has & HAS_SCANS)
        show_lengths(c->lengths, c->scans);
    if (has & HAS_FILE)
        show_file(c->file, c->file_len);
    if (has & HAS_PLACE)
        printf(", place %" PRIu64 " %" PRIu64 " %" PRIu64, c->place[0], c->place[1], c->place[2]);
    if (has & HAS_OUT)
        printf(", output of %zu bytes", c->out_len);
}
