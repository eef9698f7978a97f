/* The text of a run file, to be changed. */
#define _GNU_SOURCE
#include "text.h"
#include "call.h"
#include "second.h"

#include <stdarg.h>
#include <stdio.h>
#include <stdlib.h>
#include <string.h>

static const char close_name[] = "close=";

void text_set(struct text *t, const uint8_t *bytes, size_t len)
{
    t->len = 0;
    text_add(t, bytes, len);
}

void text_add(struct text *t, const void *bytes, size_t len)
{
    text_change(t, t->len, 0, bytes, len);
}

void text_print(struct text *t, const char *format, ...)
{
    char words[256];
    va_list values;
    va_start(values, format);
    int len = vsnprintf(words, sizeof words, format, values);
    va_end(values);
    if (len < 0 || (size_t)len >= sizeof words)
        abort();
    text_add(t, words, (size_t)len);
}

void text_change(struct text *t, size_t at, size_t len, const void *bytes, size_t new_len)
{
    if (at > t->len || len > t->len - at || t->len - len + new_len > sizeof t->bytes)
        abort();
    memmove(t->bytes + at + new_len, t->bytes + at + len, t->len - at - len);
    if (new_len > 0)
        memcpy(t->bytes + at, bytes, new_len);
    t->len += new_len - len;
}

int text_replace(struct text *t, const char *from, const char *to)
{
    uint8_t *at = memmem(t->bytes, t->len, from, strlen(from));
    if (at == NULL)
        return 0;
    text_change(t, (size_t)(at - t->bytes), strlen(from), to, strlen(to));
    return 1;
}

static void put_tag(struct text *t, const struct sample *s, size_t at)
{
    uint8_t tag[FOX128_BLOCK];
    size_t b = block_of(s->cipher);
    second_make_tag(s->cipher, s->rounds, s->key, s->key_len, t->bytes, at, tag, b);
    for (size_t i = 0; i < b; i++) {
        char pair[3];
        snprintf(pair, sizeof pair, "%02X", tag[i]);
        memcpy(t->bytes + at + strlen(close_name) + 2 * i, pair, 2);
    }
}

void text_close(struct text *t, const struct sample *s)
{
    size_t line = strlen(close_name) + 2 * block_of(s->cipher);
    for (size_t at = t->len < line ? 0 : t->len - line + 1; at-- > 0;)
        if (memcmp(t->bytes + at, close_name, strlen(close_name)) == 0) {
            put_tag(t, s, at);
            return;
        }
}

void text_add_close(struct text *t, const struct sample *s)
{
    size_t at = t->len;
    text_print(t, "%s%*s\n", close_name, 2 * (int)block_of(s->cipher), "");
    put_tag(t, s, at);
}

struct file_call call_with(const struct text *t, const struct sample *s, uint64_t *place)
{
    struct file_call c = call_on(s, place);
    c.file = t->bytes, c.file_len = t->len;
    return c;
}
