/* Two kinds of work timed in pairs, and told as a ratio. */
#ifndef SPEED_PAIRS_H
#define SPEED_PAIRS_H

#include <stddef.h>
#include <stdint.h>

/* A long message takes a good part of a second, so it is timed in fewer pairs. */
enum { PAIRS = 41, LONG_MESSAGE = 1 << 24, LONG_PAIRS = 11 };

typedef uint32_t work(uint64_t offset, size_t len);

/* Work on so many bytes, by which its time is told. */
struct side {
    const char *name;
    work *work;
    uint64_t offset;
    size_t len;
};

/* Where a ratio is asked for; nowhere, it is only shown. */
enum where { NOWHERE, ON_X86_64, EVERYWHERE };

/* MB/s in a short while. */
double rate_of(const struct side *s);

/* The heads of the columns, to be called before anything is shown below them. */
void show_heads(void);

/* The cipher and the key that stand before each line from here on. */
void show_setting(uint32_t cipher, size_t key_len);

/* How many times as fast the first is as the second. */
void show(const struct side *a, const struct side *b, double asked, enum where where);

#endif
