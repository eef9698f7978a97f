/* The run file (02, orders 4 and 7). Its text is spelled in one place for all purposes, piece by piece onto a tape,
 * which counts the bytes, writes them, or compares them with a file. A reader takes values from a file without much care
 * and spells them again, so that whatever is not as a writer would have written it is refused. */
#include "file.h"
#include "parts.h"
#include "second.h"

#include <inttypes.h>
#include <stdio.h>
#include <string.h>

enum { MOST_SCANS = 65535, MOST_SCAN = 65536, MOST_DIGITS = 5, MOST_UNCLOSED = 1073741824 };

/* Where `out` is not NULL bytes are written there, and where `file` is not NULL they are compared with its own, of
 * which there are `end`. */
struct tape {
    uint8_t *out;
    const uint8_t *file;
    uint64_t at, end;
    int differs;
};

static void put(struct tape *t, const void *bytes, size_t len)
{
    if (t->out != NULL)
        memcpy(t->out + t->at, bytes, len);
    if (t->file != NULL && !t->differs)
        t->differs = t->at > t->end || len > t->end - t->at || memcmp(t->file + t->at, bytes, len) != 0;
    t->at += len;
}

static void put_text(struct tape *t, const char *text)
{
    put(t, text, strlen(text));
}

static void put_number(struct tape *t, uint64_t number)
{
    char text[24];
    snprintf(text, sizeof text, "%" PRIu64 "\n", number);
    put_text(t, text);
}

static void put_digits(struct tape *t, const uint8_t *bytes, size_t len)
{
    for (size_t i = 0; i < len; i++) {
        char pair[3];
        snprintf(pair, sizeof pair, "%02X", bytes[i]);
        put_text(t, pair);
    }
}

static void put_block(struct tape *t, const uint8_t *block, uint32_t cipher)
{
    put_digits(t, block, cipher / 8);
    put_text(t, "\n");
}

/* The lines of a file up to what stands in the last of these. */

static void put_to_counter(struct tape *t, uint32_t cipher, uint32_t rounds)
{
    put_text(t, "format=run\ncipher=");
    put_number(t, cipher);
    put_text(t, "rounds=");
    put_number(t, rounds);
    put_text(t, "counter=");
}

static void put_to_length(struct tape *t, uint64_t number)
{
    put_text(t, "scan=");
    put_number(t, number);
    put_text(t, "bytes=");
}

static void put_to_tag(struct tape *t, uint64_t scans)
{
    put_text(t, "scans=");
    put_number(t, scans);
    put_text(t, "close=");
}

/* The bytes of a line's name, block and line feed. */
static uint64_t block_line(const char *name, uint32_t cipher)
{
    return strlen(name) + cipher / 4 + 1;
}

/* How long a file is before its line `close`, by a tape that only counts. The scans are few and short enough that the
 * sum stays far below 64 bits. */
static uint64_t unclosed(uint32_t cipher, uint32_t rounds, const uint64_t *lengths, size_t scans)
{
    struct tape t = {0};
    put_to_counter(&t, cipher, rounds);
    t.at += block_line("", cipher);
    for (size_t i = 0; i < scans; i++) {
        put_to_length(&t, i + 1);
        put_number(&t, lengths[i]);
        t.at += lengths[i] + 1;
    }
    put_to_tag(&t, scans);
    return t.at - strlen("close=");
}

static uint32_t size_refusal(uint32_t cipher, uint32_t rounds, const uint64_t *lengths, size_t scans)
{
    if (scans > MOST_SCANS)
        return 12;
    for (size_t i = 0; i < scans; i++)
        if (lengths[i] > MOST_SCAN)
            return 12;
    return unclosed(cipher, rounds, lengths, scans) > MOST_UNCLOSED ? 12 : 0;
}

uint32_t second_file_size(uint32_t cipher, uint32_t rounds, const uint64_t *lengths, size_t scans, uint64_t *count)
{
    uint32_t refusal = second_key_refusal(cipher, rounds, 0);
    *count = 0;
    if (refusal == 0)
        refusal = size_refusal(cipher, rounds, lengths, scans);
    if (refusal == 0)
        *count = unclosed(cipher, rounds, lengths, scans) + block_line("close=", cipher);
    return refusal;
}

static uint64_t sum(const uint64_t *lengths, size_t scans)
{
    uint64_t all = 0;
    for (size_t i = 0; i < scans; i++)
        all += lengths[i];
    return all;
}

/* 12 and 6. */
static uint32_t write_refusal(uint32_t cipher, uint32_t rounds, const uint64_t *lengths, size_t scans, size_t data_len,
                              size_t out_len)
{
    uint64_t size;
    uint32_t refusal = second_file_size(cipher, rounds, lengths, scans, &size);
    if (refusal == 0 && sum(lengths, scans) != data_len)
        refusal = 12;
    return refusal == 0 && out_len < size ? 6 : refusal;
}

/* An old writer refuses what opening refuses, and seals by the XOR that opening is, too. */
static uint32_t write_file(int old, uint32_t cipher, uint32_t rounds, const uint8_t *key, size_t key_len,
                           const uint8_t *counter, size_t counter_len, const uint8_t *data, size_t data_len,
                           const uint64_t *lengths, size_t scans, uint8_t *out, size_t out_len, uint64_t *count)
{
    struct tape t = {.out = out};
    uint8_t tag[MOST_BLOCK];
    uint64_t offset = 0;
    uint32_t refusal = second_turn_refusal(old, cipher, rounds, key_len);
    *count = 0;
    if (refusal == 0)
        refusal = counter_len != cipher / 8 ? 4 : write_refusal(cipher, rounds, lengths, scans, data_len, out_len);
    if (refusal != 0)
        return refusal;
    put_to_counter(&t, cipher, rounds);
    put_block(&t, counter, cipher);
    for (size_t i = 0; i < scans; i++) {
        put_to_length(&t, i + 1);
        put_number(&t, lengths[i]);
        if (lengths[i] > 0)
            second_run(old, cipher, rounds, key, key_len, counter, counter_len, offset, data + offset, lengths[i],
                       out + t.at, lengths[i]);
        offset += lengths[i];
        t.at += lengths[i];
        put_text(&t, "\n");
    }
    put_to_tag(&t, scans);
    second_make_tag(cipher, rounds, key, key_len, out, t.at - strlen("close="), tag, cipher / 8);
    put_block(&t, tag, cipher);
    *count = t.at;
    return 0;
}

uint32_t second_file_write(uint32_t cipher, uint32_t rounds, const uint8_t *key, size_t key_len, const uint8_t *counter,
                           size_t counter_len, const uint8_t *data, size_t data_len, const uint64_t *lengths,
                           size_t scans, uint8_t *out, size_t out_len, uint64_t *count)
{
    return write_file(0, cipher, rounds, key, key_len, counter, counter_len, data, data_len, lengths, scans, out,
                      out_len, count);
}

uint32_t second_old_file_write(uint32_t cipher, uint32_t rounds, const uint8_t *key, size_t key_len,
                               const uint8_t *counter, size_t counter_len, const uint8_t *data, size_t data_len,
                               const uint64_t *lengths, size_t scans, uint8_t *out, size_t out_len, uint64_t *count)
{
    return write_file(1, cipher, rounds, key, key_len, counter, counter_len, data, data_len, lengths, scans, out,
                      out_len, count);
}

/* Values taken from a file where a tape that compares it stands: digits up to the first that is none, and hex digits of
 * either kind, where others count as 0. */

static uint64_t some_number(const struct tape *t)
{
    uint64_t number = 0;
    for (uint64_t i = 0; !t->differs && i < MOST_DIGITS && i < t->end - t->at; i++) {
        uint8_t digit = t->file[t->at + i];
        if (digit < '0' || digit > '9')
            break;
        number = number * 10 + digit - '0';
    }
    return number;
}

static unsigned hex_value(uint8_t digit)
{
    const char *all = "0123456789ABCDEF0123456789abcdef", *found = digit == 0 ? NULL : strchr(all, digit);
    return found == NULL ? 0 : (unsigned)(found - all) % 16;
}

static void some_block(const struct tape *t, uint8_t *block, uint32_t cipher)
{
    memset(block, 0, cipher / 8);
    for (uint64_t i = 0; !t->differs && i < cipher / 4 && i < t->end - t->at; i++)
        block[i / 2] = (uint8_t)(block[i / 2] * 16 + hex_value(t->file[t->at + i]));
}

static struct tape compare(const uint8_t *file, size_t file_len, uint64_t from)
{
    return (struct tape){.file = file, .at = from, .end = file_len};
}

/* Where a scan's own bytes are, and what follows it. */
struct scan {
    uint64_t bytes, len, after;
};

static int scan_at(const uint8_t *file, size_t file_len, uint64_t from, uint64_t number, struct scan *s)
{
    struct tape t = compare(file, file_len, from);
    put_to_length(&t, number);
    s->len = some_number(&t);
    put_number(&t, s->len);
    s->bytes = t.at;
    if (t.differs || s->len > MOST_SCAN || s->len > t.end - t.at)
        return 0;
    t.at += s->len;
    put_text(&t, "\n");
    s->after = t.at;
    return !t.differs;
}

/* Where the header ends; 0 where it is not right. */
static uint64_t header_end(uint32_t cipher, uint32_t rounds, const uint8_t *file, size_t file_len)
{
    struct tape t = compare(file, file_len, 0);
    uint8_t counter[MOST_BLOCK];
    put_to_counter(&t, cipher, rounds);
    some_block(&t, counter, cipher);
    put_block(&t, counter, cipher);
    return t.differs ? 0 : t.at;
}

/* Whether what follows the header is right; the tag that stands in it. */
static int rest_is_right(uint32_t cipher, const uint8_t *file, size_t file_len, uint64_t from, uint8_t *tag)
{
    struct scan s;
    uint64_t scans = 0;
    if (file_len > MOST_UNCLOSED + block_line("close=", cipher))
        return 0;
    while (scans < MOST_SCANS && scan_at(file, file_len, from, scans + 1, &s)) {
        from = s.after;
        scans++;
    }
    struct tape t = compare(file, file_len, from);
    put_to_tag(&t, scans);
    some_block(&t, tag, cipher);
    put_block(&t, tag, cipher);
    return !t.differs && t.at == t.end;
}

uint32_t second_file_take_up(uint32_t cipher, uint32_t rounds, const uint8_t *key, size_t key_len, const uint8_t *file,
                             size_t file_len, uint64_t *place)
{
    uint8_t tag[MOST_BLOCK];
    uint32_t refusal = second_key_refusal(cipher, rounds, key_len);
    place[0] = UINT64_MAX, place[1] = place[2] = 0;
    if (refusal != 0)
        return refusal;
    uint64_t from = header_end(cipher, rounds, file, file_len);
    if (from == 0)
        return 11;
    if (!rest_is_right(cipher, file, file_len, from, tag))
        return 12;
    size_t tagged = file_len - block_line("close=", cipher);
    refusal = second_test_tag(cipher, rounds, key, key_len, file, tagged, tag, cipher / 8);
    if (refusal == 0)
        place[0] = from;
    return refusal;
}

static int next_scan(const uint8_t *file, size_t file_len, const uint64_t *place, struct scan *s)
{
    return place[1] < MOST_SCANS && place[2] <= MOST_UNCLOSED && scan_at(file, file_len, place[0], place[1] + 1, s);
}

static void pass(uint64_t *place, const struct scan *s)
{
    place[0] = s->after;
    place[1]++;
    place[2] += s->len;
}

uint64_t second_file_next(const uint8_t *file, size_t file_len, const uint64_t *place)
{
    struct scan s;
    return next_scan(file, file_len, place, &s) ? s.len : NO_SCAN;
}

void second_file_skip(const uint8_t *file, size_t file_len, uint64_t *place)
{
    struct scan s;
    if (next_scan(file, file_len, place, &s))
        pass(place, &s);
}

/* The counter block in the header, whose other lines are not looked at; answers with its length, 0 where there is none.
 * At the end of a text it needs no line feed. */
static size_t counter_in(uint32_t cipher, uint32_t rounds, const uint8_t *file, size_t file_len, uint8_t *counter)
{
    struct tape before = {0};
    put_to_counter(&before, cipher, rounds);
    struct tape t = compare(file, file_len, before.at - strlen("counter="));
    put_text(&t, "counter=");
    some_block(&t, counter, cipher);
    put_digits(&t, counter, cipher / 8);
    if (!t.differs && t.at < t.end)
        put_text(&t, "\n");
    return t.differs ? 0 : cipher / 8;
}

uint32_t second_file_read(uint32_t cipher, uint32_t rounds, const uint8_t *key, size_t key_len, const uint8_t *file,
                          size_t file_len, uint64_t *place, uint8_t *out, size_t out_len, uint64_t *count)
{
    uint8_t counter[MOST_BLOCK];
    struct scan s;
    *count = 0;
    if (!next_scan(file, file_len, place, &s))
        return 0;
    uint32_t refusal = second_key_refusal(cipher, rounds, key_len);
    if (refusal != 0)
        return refusal;
    size_t counter_len = counter_in(cipher, rounds, file, file_len, counter);
    refusal = second_run(1, cipher, rounds, key, key_len, counter, counter_len, place[2], file + s.bytes, s.len, out,
                         out_len);
    if (refusal != 0)
        return refusal;
    *count = s.len;
    pass(place, &s);
    return 0;
}
