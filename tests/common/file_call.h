/* One call of fox.h on a run file as a record. */
#ifndef COMMON_FILE_CALL_H
#define COMMON_FILE_CALL_H

#include "fox.h"

enum file_verb { FILE_SIZE, FILE_WRITE, FILE_TAKE_UP, FILE_NEXT, FILE_READ, FILE_SKIP, FILE_VERBS };

/* What a call may have; `name` is that of fox.h, as in fox_NAME. */
enum { HAS_KEY = 1, HAS_SCANS = 2, HAS_DATA = 4, HAS_FILE = 8, HAS_PLACE = 16, HAS_OUT = 32, HAS_COUNT = 64 };

struct file_verb_kind {
    const char *name;
    unsigned has;
};

extern const struct file_verb_kind file_verbs[FILE_VERBS];

/* A verb looks only at what it has a use for. */
struct file_call {
    uint32_t cipher, rounds;
    const uint8_t *key;
    size_t key_len;
    const uint8_t *counter;
    size_t counter_len;
    const uint8_t *data;
    size_t data_len;
    const uint64_t *lengths;
    size_t scans;
    const uint8_t *file;
    size_t file_len;
    uint64_t *place;
    uint8_t *out;
    size_t out_len;
    uint64_t *count;
};

/* The library's answer: a refusal's number or 0, the length of the next scan, and 0 for skipping. It is always inlined,
 * so that where a call's stack is measured nothing of it is counted. */
__attribute__((always_inline))
static inline uint64_t make_file_call(enum file_verb verb, const struct file_call *c)
{
    switch (verb) {
    case FILE_SIZE:
        return fox_file_size(c->cipher, c->rounds, c->lengths, c->scans, c->count);
    case FILE_WRITE:
        return fox_file_write(c->cipher, c->rounds, c->key, c->key_len, c->counter, c->counter_len, c->data,
                              c->data_len, c->lengths, c->scans, c->out, c->out_len, c->count);
    case FILE_TAKE_UP:
        return fox_file_take_up(c->cipher, c->rounds, c->key, c->key_len, c->file, c->file_len, c->place);
    case FILE_NEXT:
        return fox_file_next_length(c->file, c->file_len, c->place);
    case FILE_READ:
        return fox_file_read(c->cipher, c->rounds, c->key, c->key_len, c->file, c->file_len, c->place, c->out,
                             c->out_len, c->count);
    default:
        fox_file_skip(c->file, c->file_len, c->place);
        return 0;
    }
}

/* Prints the call, so that it can be made again, but for all after the first bytes of a long buffer. */
void show_file_call(enum file_verb verb, const struct file_call *c);

#endif
