/* How the fuzzer changes an input of tests/fuzz/file.c: by turns in its own way, which knows bytes alone, and as files
 * go wrong: by their lines and numbers. */
#define _GNU_SOURCE
#include "chance.h"
#include "file_input.h"

#include <ctype.h>
#include <string.h>

size_t LLVMFuzzerMutate(uint8_t *bytes, size_t len, size_t most);
size_t LLVMFuzzerCustomMutator(uint8_t *bytes, size_t len, size_t most, unsigned seed);

struct file {
    uint8_t *bytes;
    size_t len, most;
};

/* The bytes from a place on, so many of them, become others, where there is room. */
static void change(struct file *f, size_t at, size_t len, const uint8_t *bytes, size_t new_len)
{
    if (f->len - len + new_len > f->most)
        return;
    memmove(f->bytes + at + new_len, f->bytes + at + len, f->len - at - len);
    memmove(f->bytes + at, bytes, new_len);
    f->len += new_len - len;
}

/* Some place in the file that has this byte, or its end. */
static size_t some_place(const struct file *f, uint8_t byte)
{
    size_t from = below(f->len + 1);
    const uint8_t *found = from == f->len ? NULL : memchr(f->bytes + from, byte, f->len - from);
    return found == NULL ? f->len : (size_t)(found - f->bytes);
}

static void zero_in_number(struct file *f)
{
    size_t at = some_place(f, '=');
    if (at < f->len)
        change(f, at + 1, 0, (const uint8_t *)"0", 1);
}

static void byte_at_end(struct file *f)
{
    uint8_t byte = (uint8_t)"\n\r 0"[below(4)];
    change(f, f->len, 0, &byte, 1);
}

/* Another digit or letter, or the same letter, small. */
static void digit_changed(struct file *f)
{
    for (size_t i = below(f->len + 1); i < f->len; i++)
        if (isxdigit(f->bytes[i])) {
            f->bytes[i] = below(2) == 0 ? (uint8_t)tolower(f->bytes[i]) : (uint8_t)(f->bytes[i] ^ 1);
            return;
        }
}

static void return_before_feed(struct file *f)
{
    size_t at = some_place(f, '\n');
    if (at < f->len)
        change(f, at, 0, (const uint8_t *)"\r", 1);
}

/* A line is there twice, or not at all. */
static void line_doubled(struct file *f)
{
    size_t from = some_place(f, '\n') + 1;
    if (from >= f->len)
        return;
    const uint8_t *feed = memchr(f->bytes + from, '\n', f->len - from);
    size_t len = feed == NULL ? f->len - from : (size_t)(feed - f->bytes) + 1 - from;
    if (below(2) == 0)
        change(f, from, len, f->bytes, 0);
    else
        change(f, from + len, 0, f->bytes + from, len);
}

size_t LLVMFuzzerCustomMutator(uint8_t *bytes, size_t len, size_t most, unsigned seed)
{
    static void (*const changes[])(struct file *) = {zero_in_number, byte_at_end, digit_changed, return_before_feed,
                                                     line_doubled};
    chance_from(seed);
    if (below(2) == 0 || len < CHOICES || most < CHOICES)
        return LLVMFuzzerMutate(bytes, len, most);
    struct file f = {bytes + CHOICES, len - CHOICES, most - CHOICES};
    if (below(4) == 0)
        bytes[OUTPUT] = (uint8_t)any_number();
    else
        changes[below(sizeof changes / sizeof *changes)](&f);
    if (below(4) != 0)
        bytes[KIND] = TAGGED;
    return CHOICES + f.len;
}
