/* Stands before the bench sheet's export, by the linker's --wrap, and puts the one fault named by FAULT into it, so
 * that one sees whether the fuzzer finds it. */
#define _GNU_SOURCE
#include "exact.h"

#include <string.h>

enum {
    LEADING_ZERO = 1,
    SMALL_DIGIT,
    FEED_AFTER,
    NUMBER_WRAPS,
    NUL_AFTER,
    READS_AFTER,
    FIFTEEN_SEALED,
    OPENING_REFUSED
};

/* The hex digits of the shortest key that seals. */
enum { SEAL_DIGITS = 32 };

size_t __real_fox_probe_sheet(const uint8_t *sheet, size_t len, uint8_t *out);
size_t __wrap_fox_probe_sheet(const uint8_t *sheet, size_t len, uint8_t *out);

/* Replaces one text by another that is no longer, where it stands first. */
static void replace(struct exact *e, const char *from, const char *to)
{
    size_t long_len = strlen(from), short_len = strlen(to);
    for (size_t i = 0; i + long_len <= e->len; i++)
        if (memcmp(e->at + i, from, long_len) == 0) {
            memcpy(e->at + i, to, short_len);
            memmove(e->at + i + short_len, e->at + i + long_len, e->len - i - long_len);
            e->len -= long_len - short_len;
            return;
        }
}

/* How many bytes the line of the key has after its name; 0 where there is none. */
static size_t key_digits(const struct exact *e)
{
    const uint8_t *key = memmem(e->at, e->len, "\nkey=", 5);
    const uint8_t *feed = key == NULL ? NULL : memchr(key + 5, '\n', (size_t)(e->at + e->len - key) - 5);
    return feed == NULL ? 0 : (size_t)(feed - key) - 5;
}

/* Sealing with a short key as opening, which serves it, or the other way about. */
static void mend_way(struct exact *e)
{
    if (FAULT == FIFTEEN_SEALED && key_digits(e) == SEAL_DIGITS - 2)
        replace(e, "way=seal", "way=open");
    if (FAULT == OPENING_REFUSED && key_digits(e) < SEAL_DIGITS)
        replace(e, "way=open", "way=seal");
}

static void mend(struct exact *e)
{
    mend_way(e);
    if (FAULT == LEADING_ZERO)
        replace(e, "rounds=0", "rounds=");
    if (FAULT == NUMBER_WRAPS)
        replace(e, "=65536\n", "=0\n");
    if (FAULT == FEED_AFTER && e->len > 2 && memcmp(e->at + e->len - 2, "\n\n", 2) == 0)
        e->len--;
    for (size_t i = 1; FAULT == SMALL_DIGIT && i < e->len; i++)
        if (e->at[i] >= 'a' && e->at[i] <= 'f' && e->at[i - 1] >= '0' && e->at[i - 1] <= '9')
            e->at[i] = (uint8_t)(e->at[i] - 'a' + 'A');
}

size_t __wrap_fox_probe_sheet(const uint8_t *sheet, size_t len, uint8_t *out)
{
    struct exact e = exact_copy(sheet, len);
    mend(&e);
    size_t count = __real_fox_probe_sheet(e.at, e.len, out);
    if (FAULT == NUL_AFTER)
        out[count] = 0;
    if (FAULT == READS_AFTER && sheet[len] == '\n')
        count++;
    exact_free(&e);
    return count;
}
