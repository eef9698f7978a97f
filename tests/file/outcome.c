/* A call on a run file as the second implementation answers it. */
#include "outcome.h"
#include "file.h"

#include <string.h>

struct outcome second_outcome(enum file_verb verb, const struct file_call *c)
{
    struct outcome o = {0};
    uint64_t *place = o.place;
    if (file_verbs[verb].has & HAS_PLACE)
        memcpy(place, c->place, sizeof o.place);
    switch (verb) {
    case FILE_SIZE:
        o.answer = second_file_size(c->cipher, c->rounds, c->lengths, c->scans, &o.count);
        break;
    case FILE_WRITE:
        o.answer = second_file_write(c->cipher, c->rounds, c->key, c->key_len, c->counter, c->counter_len, c->data,
                                     c->data_len, c->lengths, c->scans, c->out, c->out_len, &o.count);
        break;
    case FILE_TAKE_UP:
        o.answer = second_file_take_up(c->cipher, c->rounds, c->key, c->key_len, c->file, c->file_len, place);
        break;
    case FILE_NEXT:
        o.answer = second_file_next(c->file, c->file_len, place);
        break;
    case FILE_READ:
        o.answer = second_file_read(c->cipher, c->rounds, c->key, c->key_len, c->file, c->file_len, place, c->out,
                                    c->out_len, &o.count);
        break;
    default:
        second_file_skip(c->file, c->file_len, place);
    }
    return o;
}
