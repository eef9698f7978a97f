/* Plain C code for FOX by tables, in kinds that differ in how a round's second substitution is looked up, and with one
 * to five blocks of a run side by side. Every compiler that is tried compiles it, and one program has the code of
 * all. */
#ifndef SPEED_VARIANTS_H
#define SPEED_VARIANTS_H

#include "plain.h"

#include <stddef.h>
#include <stdint.h>

enum { MOST_BLOCKS = 5, KINDS = 5 };

typedef void variant_run(const struct plain_key *key, const uint8_t *counter, uint64_t offset, const uint8_t *input,
                         size_t len, uint8_t *out);
typedef void variant_tag(const struct plain_key *key, const uint8_t *message, size_t len, uint8_t *tag);

/* `second` is what the kind of lookup is called; `runs` has the code for one block, for two side by side, and so on.
 * The blocks of a tag go one at a time. */
struct kind {
    uint32_t cipher;
    const char *second;
    variant_run *runs[MOST_BLOCKS];
    variant_tag *tag;
};

/* What one compiler has made: `by` is what it is called here. Its tables are to be made before all else. */
struct variants {
    const char *by, *compiler;
    void (*make_tables)(void);
    struct kind kinds[KINDS];
};

#endif
