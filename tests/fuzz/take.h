/* A fuzzer's input taken apart into one call of the station's library. Every input is a call, and most of them are ones
 * that are served; each argument can be wrong too, alone or together with others. */
#ifndef FUZZ_TAKE_H
#define FUZZ_TAKE_H

#include "call.h"

enum { SHORT_ROOM = 80, LONG_ROOM = 70000 };

/* `back` is the engine that takes back what is served; the call itself goes to all. The call has no output yet. */
struct job {
    enum verb verb;
    const struct engine *back;
    struct call call;
};

/* The choices stand first in the input, in this order and each in CHOICE bytes: a byte for the kind of thing, and a
 * number that it may be made of. The bytes of key, block, counter or stored tag, and data or message follow. */
enum { WHICH, CIPHER, ROUNDS, KEY_LEN, FIRST_LEN, DATA_LEN, OFFSET, OFFSET_HIGH, OUT_LEN, STORED, CHOICES };
enum { CHOICE = 5, HEAD = CHOICES * CHOICE };

/* The bytes of every call stand in the same place. */
struct job take_job(const uint8_t *bytes, size_t len);

/* How many bytes there are of the call's data: none of a message above the limit, of which no byte is to be read. */
size_t data_behind(const struct call *c);

#endif
