/* Calls to compare: right ones by chance, and what can be wrong with one. */
#ifndef BESIDE_CALLS_H
#define BESIDE_CALLS_H

#include "call.h"

enum { SHORT_ROOM = 80, LONG_ROOM = 70000 };

/* What every call here is lent, filled anew for each. */
extern struct given {
    uint8_t key[SHORT_ROOM], first[SHORT_ROOM], data[LONG_ROOM];
} given;

/* One of the two by chance, or by turns. */
uint32_t some_cipher(void);
uint32_t cipher_by(size_t number);

/* Neither of the two, though some would be right if only a part of the number were looked at. */
enum { WRONG_CIPHERS = 26 };
extern const uint32_t wrong_ciphers[WRONG_CIPHERS];

/* A number of rounds, and an offset for this much data, at an edge or by chance; not always one that is served. */
uint32_t odd_rounds(void);
uint64_t odd_offset(size_t data_len);

/* Calls that are served, with a key of any length, and with no output yet; but sealing is refused to one key in four,
 * which is too short for it. */
struct call right_block(uint32_t cipher);
struct call right_run(uint32_t cipher, size_t data_len, uint64_t offset);

/* A call that is served where the tag is made, and where the one at `first` is tested. */
struct call right_tag(uint32_t cipher, size_t message_len);

/* Puts the tag of the call's message at `first`, where such a call was changed; nothing where that is refused. */
void store_tag(const struct call *c);

/* Changes one argument to a wrong one, or exchanges two. A second change may come on top of it, and may by chance undo
 * it. */
void damage_block(struct call *c);
void damage_run(struct call *c);
void damage_tag(struct call *c);

#endif
