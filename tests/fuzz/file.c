/* A fuzzer's input as a run file that is taken up and read, or as scans that are written: what the library does beside
 * what the second implementation does, the answer, the count, the place and every byte. Stops the program where
 * anything differs. */
#define _GNU_SOURCE
#include "answers.h"
#include "exact.h"
#include "file_input.h"
#include "outcome.h"
#include "second.h"

#include <inttypes.h>
#include <stdio.h>
#include <stdlib.h>
#include <string.h>

enum { MOST_INPUT = 4096, MOST_SCANS = 64, MOST_DATA = 140000, MOST_WRITTEN = MOST_DATA + 8192 };

int LLVMFuzzerTestOneInput(const uint8_t *bytes, size_t len);

/* What is lent to a call, each thing in a block of exactly its length. */
struct lent {
    struct exact key, counter, data, lengths, file, place, out, count;
};

/* The output as it is to be after a call, by the second implementation. */
static uint8_t expected[MOST_WRITTEN];

static struct lent lend(const struct file_call *c)
{
    static const uint64_t no_count = 0x7766554433221100;
    return (struct lent){exact_copy(c->key, c->key_len), exact_copy(c->counter, c->counter_len),
                         exact_copy(c->data, c->data_len),
                         exact_copy((const uint8_t *)c->lengths, c->scans * sizeof *c->lengths),
                         exact_copy(c->file, c->file_len),
                         exact_copy((const uint8_t *)c->place, FOX_PLACE_WORDS * sizeof *c->place),
                         exact_room(c->out_len), exact_copy((const uint8_t *)&no_count, sizeof no_count)};
}

static void take_back(struct lent *l)
{
    struct exact *all[] = {&l->key, &l->counter, &l->data, &l->lengths, &l->file, &l->place, &l->out, &l->count};
    for (size_t i = 0; i < sizeof all / sizeof *all; i++)
        exact_free(all[i]);
}

/* Numbers that are none have to be aligned too. */
static struct file_call on_lent(const struct file_call *c, const struct lent *l)
{
    static const uint64_t none;
    struct file_call made = *c;
    made.key = l->key.at, made.counter = l->counter.at, made.data = l->data.at, made.file = l->file.at;
    made.lengths = c->scans == 0 ? &none : (const uint64_t *)(void *)l->lengths.at;
    made.place = (uint64_t *)(void *)l->place.at, made.out = l->out.at, made.count = (uint64_t *)(void *)l->count.at;
    return made;
}

static int same(const struct exact *e, const void *bytes)
{
    return e->len == 0 || memcmp(e->at, bytes, e->len) == 0;
}

static const char *difference(enum file_verb verb, const struct file_call *c, const struct lent *l, uint64_t answer,
                              const struct outcome *right)
{
    unsigned has = file_verbs[verb].has;
    if (answer != right->answer)
        return "answers otherwise";
    if ((has & HAS_COUNT) && !same(&l->count, &right->count))
        return "counts otherwise";
    if ((has & HAS_PLACE) && !same(&l->place, right->place))
        return "goes to another place";
    if ((has & HAS_OUT) && !exact_holds(&l->out, expected, (size_t)right->count))
        return "has written another byte, or left one out";
    if (!same(&l->key, c->key) || !same(&l->counter, c->counter) || !same(&l->data, c->data) ||
        !same(&l->lengths, c->lengths) || !same(&l->file, c->file))
        return "has changed what was lent for reading";
    return NULL;
}

/* Makes the call by both; answers with what the second implementation does. */
static struct outcome hold(enum file_verb verb, const struct file_call *c)
{
    struct file_call theirs = *c;
    theirs.out = expected;
    struct outcome right = second_outcome(verb, &theirs);
    struct lent l = lend(c);
    struct file_call made = on_lent(c, &l);
    exact_paint(&l.out, expected, (file_verbs[verb].has & HAS_OUT) ? (size_t)right.count : 0);
    uint64_t answer = make_file_call(verb, &made);
    const char *wrong = difference(verb, c, &l, answer, &right);
    if (verb != FILE_NEXT)
        count_answer((uint32_t)right.answer);
    if (wrong != NULL) {
        printf("file: ");
        show_file_call(verb, c);
        printf(": %s (%" PRIu64 ", right is %" PRIu64 ")\n", wrong, answer, right.answer);
        fflush(stdout);
        abort();
    }
    take_back(&l);
    return right;
}

/* One more or one less than is right, now and then. */
static uint64_t about(uint64_t right, uint8_t choice)
{
    if (choice % 8 < 6)
        return right;
    return choice % 8 == 6 && right > 0 ? right - 1 : right + 1;
}

/* What comes at the call's place, by all calls, of which only the last moves the place on. */
static int hold_next(struct file_call *c, uint8_t choice)
{
    uint64_t next = hold(FILE_NEXT, c).answer;
    c->out_len = next == FOX_NO_SCAN ? choice % 32 : (size_t)about(next, choice);
    hold(FILE_READ, c);
    struct outcome after = hold(FILE_SKIP, c);
    memcpy(c->place, after.place, sizeof after.place);
    return next != FOX_NO_SCAN;
}

/* The tag of what stands before the last line `close`, where there is one; now and then with one of its last digits
 * changed. */
static void make_tag(const struct file_call *c, uint8_t *file, uint8_t choice)
{
    static const char name[] = "close=";
    uint8_t tag[FOX128_BLOCK];
    size_t digits = c->cipher == FOX64 ? 2 * FOX64_BLOCK : 2 * FOX128_BLOCK, line = sizeof name - 1 + digits;
    for (size_t at = c->file_len < line ? 0 : c->file_len - line + 1; at-- > 0;) {
        if (memcmp(file + at, name, sizeof name - 1) != 0)
            continue;
        if (second_make_tag(c->cipher, c->rounds, c->key, c->key_len, file, at, tag, digits / 2) != FOX_SERVED)
            return;
        for (size_t i = 0; i < digits; i++)
            file[at + line - digits + i] = (uint8_t)"0123456789ABCDEF"[tag[i / 2] >> (i % 2 == 0 ? 4 : 0) & 15];
        uint8_t *digit = &file[at + line - 1 - choice / 32];
        if (choice / 8 % 4 == 3)
            *digit = *digit == '0' ? '1' : '0';
        return;
    }
}

static void hold_file(struct file_call *c, uint8_t choice)
{
    struct outcome taken = hold(FILE_TAKE_UP, c);
    memcpy(c->place, taken.place, sizeof taken.place);
    for (int i = 0; i < MOST_SCANS && hold_next(c, (uint8_t)(choice + i)); i++)
        ;
}

static uint64_t place_word(const uint8_t *bytes)
{
    const uint64_t odd[] = {FOX_MOST_SCANS - 1, FOX_MOST_SCANS, FOX_MOST_SCANS + 1, FOX_RUN_END, FOX_RUN_END - bytes[1],
                            UINT64_MAX,         1ull << 32,     1ull << 63};
    return bytes[0] < 224 ? (uint64_t)(bytes[1] & 3) << 8 | bytes[0] : odd[bytes[0] % 8];
}

/* The file's first six bytes are the place. */
static void hold_place(struct file_call *c, uint8_t choice)
{
    if (c->file_len < 2 * FOX_PLACE_WORDS)
        return;
    for (size_t i = 0; i < FOX_PLACE_WORDS; i++)
        c->place[i] = place_word(c->file + 2 * i);
    c->file += 2 * FOX_PLACE_WORDS, c->file_len -= 2 * FOX_PLACE_WORDS;
    hold_next(c, choice);
}

static uint64_t length_of(uint8_t byte)
{
    static const uint64_t odd[] = {FOX_MOST_SCAN - 1, FOX_MOST_SCAN, FOX_MOST_SCAN + 1, 1ull << 32, 1ull << 63,
                                   UINT64_MAX};
    return byte < 250 ? byte : odd[byte - 250];
}

/* The lengths are the bytes that follow the choices; the counter stands before them. */
static void hold_written(struct file_call *c, const uint8_t *bytes, size_t len, uint8_t choice)
{
    static uint64_t lengths[MOST_SCANS];
    static uint8_t data[MOST_DATA];
    uint64_t sum = 0, size = 0;
    c->lengths = lengths, c->data = data, c->counter = bytes;
    c->counter_len = about(c->cipher == FOX64 ? FOX64_BLOCK : FOX128_BLOCK, choice);
    if (len <= c->counter_len)
        return;
    for (size_t i = c->counter_len; i < len && c->scans < MOST_SCANS && sum < MOST_DATA; i++) {
        lengths[c->scans++] = length_of(bytes[i]);
        sum += length_of(bytes[i]);
    }
    c->data_len = (size_t)about(sum, (uint8_t)(choice * 3));
    if (c->data_len > MOST_DATA)
        c->data_len = MOST_DATA;
    for (size_t i = 0; i < c->data_len; i++)
        data[i] = (uint8_t)(i * 29 + i / 256);
    size = hold(FILE_SIZE, c).count;
    c->out_len = size > MOST_WRITTEN ? 0 : (size_t)about(size, (uint8_t)(choice * 7));
    hold(FILE_WRITE, c);
}

int LLVMFuzzerTestOneInput(const uint8_t *bytes, size_t len)
{
    static uint8_t key[64], file[MOST_INPUT], none;
    uint64_t place[FOX_PLACE_WORDS] = {0};
    if (len < CHOICES || len > MOST_INPUT)
        return 0;
    for (size_t i = 0; i < sizeof key; i++)
        key[i] = (uint8_t)(i * 37 + 1);
    memcpy(file, bytes + CHOICES, len - CHOICES);
    struct file_call c = {.cipher = bytes[CIPHER], .rounds = bytes[ROUNDS], .key = key, .key_len = bytes[KEY_LEN] % 36,
                          .counter = &none, .data = &none, .lengths = place, .file = file, .file_len = len - CHOICES,
                          .place = place};
    int kind = bytes[KIND] % KINDS;
    if (kind == TAGGED)
        make_tag(&c, file, bytes[OUTPUT]);
    if (kind == PLACED)
        hold_place(&c, bytes[OUTPUT]);
    else if (kind == WRITTEN)
        hold_written(&c, bytes + CHOICES, len - CHOICES, bytes[OUTPUT]);
    else
        hold_file(&c, bytes[OUTPUT]);
    return 0;
}
