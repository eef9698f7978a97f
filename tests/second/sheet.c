/* The bench program's answer (01, "The bench program"): the sheet cut into lines, each line held to its rule, the block
 * sealed or opened. */
#include "sheet.h"
#include "second.h"

#include <inttypes.h>
#include <stdio.h>
#include <string.h>

enum { LINES = 5, MOST_KEY_PAIRS = 64, MOST_BLOCK_PAIRS = 32, MOST_NUMBER = 65535 };

/* Some bytes of the sheet. */
struct text {
    const uint8_t *at;
    size_t len;
};

struct request {
    uint32_t cipher, rounds;
    uint8_t key[MOST_KEY_PAIRS];
    size_t key_len;
    int opening;
    uint8_t block[MOST_BLOCK_PAIRS];
    size_t block_len;
};

static int is(struct text t, const char *word)
{
    return t.len == strlen(word) && memcmp(t.at, word, t.len) == 0;
}

/* Cuts the first line off, without its line feed; a sheet with no line feed left has no line left. */
static int cut_line(struct text *sheet, struct text *line)
{
    const uint8_t *feed = sheet->len == 0 ? NULL : memchr(sheet->at, '\n', sheet->len);
    if (feed == NULL)
        return 0;
    line->at = sheet->at;
    line->len = (size_t)(feed - sheet->at);
    sheet->at += line->len + 1;
    sheet->len -= line->len + 1;
    return 1;
}

/* Leaves what stands after `name` and one '='. */
static int cut_name(struct text *line, const char *name)
{
    size_t len = strlen(name);
    if (line->len <= len || memcmp(line->at, name, len) != 0 || line->at[len] != '=')
        return 0;
    line->at += len + 1;
    line->len -= len + 1;
    return 1;
}

static int read_number(struct text t, uint32_t *number)
{
    *number = 0;
    if (t.len == 0 || t.len > 5 || (t.len > 1 && t.at[0] == '0'))
        return 0;
    for (size_t i = 0; i < t.len; i++) {
        if (t.at[i] < '0' || t.at[i] > '9')
            return 0;
        *number = *number * 10 + (t.at[i] - (uint32_t)'0');
    }
    return *number <= MOST_NUMBER;
}

static int digit_value(uint8_t digit)
{
    if (digit >= '0' && digit <= '9')
        return digit - '0';
    return digit >= 'A' && digit <= 'F' ? digit - 'A' + 10 : -1;
}

static int read_pairs(struct text t, uint8_t *bytes, size_t most, size_t *count)
{
    if (t.len % 2 != 0 || t.len / 2 > most)
        return 0;
    for (size_t i = 0; i < t.len; i += 2) {
        int high = digit_value(t.at[i]), low = digit_value(t.at[i + 1]);
        if (high < 0 || low < 0)
            return 0;
        bytes[i / 2] = (uint8_t)(high * 16 + low);
    }
    *count = t.len / 2;
    return 1;
}

static int read_line(int number, struct text line, struct request *r)
{
    static const char *const names[LINES] = {"cipher", "rounds", "key", "way", "block"};
    if (!cut_name(&line, names[number - 1]))
        return 0;
    switch (number) {
    case 1:
        return read_number(line, &r->cipher);
    case 2:
        return read_number(line, &r->rounds);
    case 3:
        return read_pairs(line, r->key, MOST_KEY_PAIRS, &r->key_len);
    case 4:
        r->opening = is(line, "open");
        return r->opening || is(line, "seal");
    default:
        return read_pairs(line, r->block, MOST_BLOCK_PAIRS, &r->block_len);
    }
}

/* The first line that breaks a rule or is missing, 6 for text after the fifth, or 0. */
static int broken_line(struct text sheet, struct request *r)
{
    struct text line = {NULL, 0};
    for (int number = 1; number <= LINES; number++)
        if (!cut_line(&sheet, &line) || !read_line(number, line, r))
            return number;
    return sheet.len > 0 ? LINES + 1 : 0;
}

static size_t served(const struct request *r, const uint8_t *out, char *answer, size_t room)
{
    int len =
        snprintf(answer, room, "refusal=0\ncipher=%" PRIu32 "\nrounds=%" PRIu32 "\nkeybits=%zu\nblock=", r->cipher,
                 r->rounds, r->key_len * 8);
    size_t end = (size_t)len;
    for (size_t i = 0; i < r->block_len; i++) {
        answer[end++] = "0123456789ABCDEF"[out[i] / 16];
        answer[end++] = "0123456789ABCDEF"[out[i] % 16];
    }
    answer[end++] = '\n';
    return end;
}

size_t second_sheet(const uint8_t *sheet, size_t len, char *answer, size_t room)
{
    struct request r = {0};
    uint8_t out[MOST_BLOCK_PAIRS];
    if (room < MOST_ANSWER)
        return 0;
    int broken = broken_line((struct text){sheet, len}, &r);
    if (broken != 0)
        return (size_t)snprintf(answer, room, "refusal=8\nline=%d\n", broken);
    uint32_t refusal =
        second_block(r.opening, r.cipher, r.rounds, r.key, r.key_len, r.block, r.block_len, out, r.block_len);
    if (refusal != 0)
        return (size_t)snprintf(answer, room, "refusal=%" PRIu32 "\n", refusal);
    return served(&r, out, answer, room);
}
