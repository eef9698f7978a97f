/* The limits: how long a key is, how many scans a file has, how long one of them is, and how long the file is before
 * its line `close`. Where a length is more than a test can afford there is no memory behind it, so that a byte that is
 * read shows. */
#define _GNU_SOURCE
#include "chance.h"
#include "count.h"
#include "faults.h"
#include "file.h"
#include "groups.h"
#include "rooms.h"
#include "sample.h"
#include "tally.h"
#include "text.h"
#include "try.h"

#include <inttypes.h>
#include <stdio.h>
#include <stdlib.h>
#include <string.h>
#include <sys/mman.h>

enum { PAGE = 65536, MARGIN = 1 << 20 };

static struct text text;
static uint64_t lengths[FOX_MOST_SCANS + 2];

static void set_lengths(size_t scans, uint64_t each, uint64_t last)
{
    for (size_t i = 0; i < scans; i++)
        lengths[i] = i + 1 < scans ? each : last;
}

/* Text by text, with as many scans as are asked for, and with bytes that are not sealed by anybody. The tag, which takes
 * a while, is right where it is to be looked at. */
static void spell(const struct sample *s, size_t scans, uint64_t bytes, size_t said, int tagged)
{
    static const uint8_t zeros[FOX_MOST_SCAN + 1];
    text_set(&text, s->file, header_len(s));
    for (size_t i = 1; i <= scans; i++) {
        text_print(&text, "scan=%zu\nbytes=%" PRIu64 "\n", i, bytes);
        text_add(&text, zeros, (size_t)bytes);
        text_print(&text, "\n");
    }
    text_print(&text, "scans=%zu\n", said);
    if (tagged)
        text_add_close(&text, s);
    else
        text_print(&text, "close=%0*d\n", (int)(s->cipher / 4), 0);
}

static void spelled(const struct sample *s, size_t scans, uint64_t bytes, size_t said, uint32_t number)
{
    uint64_t place[FOX_PLACE_WORDS];
    spell(s, scans, bytes, said, number == FOX_SERVED);
    struct file_call c = call_with(&text, s, place);
    struct outcome o = try_call(FILE_TAKE_UP, &c);
    if (case_wrong(o.answer == number))
        printf("%zu scans of %" PRIu64 " bytes: answered with %" PRIu64 "\n", scans, bytes, o.answer);
}

/* The file of these scans is told, written and taken up. */
static void whole(uint32_t cipher, size_t scans)
{
    uint64_t place[FOX_PLACE_WORDS];
    struct sample s = make_sample(cipher, FOX_LEAST_ROUNDS, 16, lengths, scans);
    struct file_call c = call_on(&s, place);
    struct outcome right = {FOX_SERVED, s.file_len, {place[0], 0, 0}};
    hold_call(FILE_SIZE, &c, &right, NULL);
    hold_call(FILE_WRITE, &c, &right, s.file);
    hold_call(FILE_TAKE_UP, &c, &right, NULL);
    free_sample(&s);
}

/* Refused by the scans alone, where there would be data and room enough. */
static void too_much(const struct sample *s, size_t scans, size_t data_len)
{
    static const uint8_t data[FOX_MOST_SCAN + 1];
    uint64_t place[FOX_PLACE_WORDS];
    struct file_call c = call_on(s, place);
    c.lengths = lengths, c.scans = scans, c.data = data, c.data_len = data_len, c.out_len = MOST_ROOM;
    hold_refused(FILE_SIZE, &c, FOX_REFUSED_FILE);
    hold_refused(FILE_WRITE, &c, FOX_REFUSED_FILE);
}

static void numbers_of_scans(void)
{
    group_begin("65,534 and 65,535 scans, and 65,536");
    for (size_t scans = FOX_MOST_SCANS - 1; scans <= FOX_MOST_SCANS; scans++) {
        set_lengths(scans, 0, 3);
        lengths[7] = 20;
        whole(scans % 2 == 0 ? FOX64 : FOX128, scans);
        spelled(&vectors[3], scans, 0, scans, FOX_SERVED);
        spelled(&vectors[3], scans, 0, scans - 1, FOX_REFUSED_FILE);
        spelled(&vectors[3], scans, 0, scans + 1, FOX_REFUSED_FILE);
    }
    set_lengths(FOX_MOST_SCANS + 1, 0, 0);
    too_much(&vectors[3], FOX_MOST_SCANS + 1, 0);
    too_much(&vectors[6], FOX_MOST_SCANS + 2, 0);
    spelled(&vectors[3], FOX_MOST_SCANS + 1, 0, FOX_MOST_SCANS + 1, FOX_REFUSED_FILE);
    spelled(&vectors[3], FOX_MOST_SCANS + 1, 0, FOX_MOST_SCANS, FOX_REFUSED_FILE);
    group_end();
}

static void lengths_of_scans(void)
{
    group_begin("scans of 65,535 and 65,536 bytes, and of 65,537");
    for (uint64_t len = FOX_MOST_SCAN - 1; len <= FOX_MOST_SCAN; len++) {
        set_lengths(2, len, len);
        whole(FOX64, 2);
        whole(FOX128, 1);
        spelled(&vectors[6], 2, len, 2, FOX_SERVED);
    }
    spelled(&vectors[3], 1, FOX_MOST_SCAN + 1, 1, FOX_REFUSED_FILE);
    spelled(&vectors[6], 2, FOX_MOST_SCAN + 1, 2, FOX_REFUSED_FILE);
    set_lengths(1, 0, FOX_MOST_SCAN + 1);
    too_much(&vectors[3], 1, FOX_MOST_SCAN + 1);
    set_lengths(3, 0, FOX_MOST_SCAN + 1);
    too_much(&vectors[6], 3, FOX_MOST_SCAN + 1);
    set_lengths(2, UINT64_MAX, 9);
    too_much(&vectors[3], 2, 8);
    set_lengths(1, 0, (1ull << 32) + 5);
    too_much(&vectors[3], 1, 5);
    group_end();
}

/* Scans whose file has exactly as many bytes before the line `close` as it may, and some more or less by their last
 * one. Answers with their number; their sum is put at `sum`. */
static size_t at_limit(uint32_t cipher, uint32_t rounds, int64_t more, uint64_t *sum)
{
    enum { SOME = 10000 };
    const uint64_t most = (uint64_t)FOX_MOST_FILE + strlen("close=\n") + cipher / 4;
    size_t scans = FOX_MOST_FILE / FOX_MOST_SCAN;
    uint64_t size;
    do {
        set_lengths(--scans, FOX_MOST_SCAN, SOME);
    } while (second_file_size(cipher, rounds, lengths, scans, &size) != 0);
    lengths[scans - 1] = SOME + most - size + (uint64_t)more;
    *sum = (scans - 1) * (uint64_t)FOX_MOST_SCAN + lengths[scans - 1];
    return scans;
}

static const uint8_t *nowhere;

static void make_nowhere(void)
{
    const uint8_t *all = no_room((size_t)FOX_MOST_FILE + 2 * MARGIN);
    if (all == NULL)
        abort();
    nowhere = all + PAGE;
}

static void answered(enum file_verb verb, const struct file_call *c, uint64_t right)
{
    uint64_t answer = caught_call(verb, c);
    if (case_wrong(answer == right && (verb == FILE_TAKE_UP || *c->count == 0))) {
        printf("fox_%s, %zu scans, data of %zu, output of %zu, file of %zu bytes: ", file_verbs[verb].name, c->scans,
               c->data_len, c->out_len, c->file_len);
        if (answer == NO_ANSWER)
            printf("faults at %p, and is to answer %" PRIu64 "\n", (const void *)fault_place(), right);
        else
            printf("answers %" PRIu64 " and not %" PRIu64 ", or counts something\n", answer, right);
    }
}

static int is_within(const uint8_t *address, const uint8_t *bytes, size_t len)
{
    return address >= bytes && address < bytes + len;
}

/* Work is begun, which faults in what is read, or in what is written. */
static void begun(enum file_verb verb, const struct file_call *c)
{
    uint64_t answer = caught_call(verb, c);
    const uint8_t *place = fault_place();
    int inside = verb == FILE_WRITE ? is_within(place, c->data, c->data_len) || is_within(place, c->out, c->out_len)
                                    : is_within(place, c->file, c->file_len);
    if (case_wrong(answer == NO_ANSWER && inside))
        printf("fox_%s, data of %zu, file of %zu bytes: answers %" PRIu64 " without looking at it\n",
               file_verbs[verb].name, c->data_len, c->file_len, answer);
}

/* With data that has no memory behind it, and an output that has none. */
static void written_nowhere(const struct sample *s, int64_t more)
{
    const uint64_t most = (uint64_t)FOX_MOST_FILE + strlen("close=\n") + s->cipher / 4;
    const uint64_t size = most + (uint64_t)more;
    uint64_t place[FOX_PLACE_WORDS], count = 1, sum;
    struct file_call c = call_on(s, place);
    c.scans = at_limit(s->cipher, s->rounds, more, &sum);
    c.lengths = lengths, c.data = nowhere, c.data_len = (size_t)sum, c.out = (uint8_t *)nowhere, c.count = &count;
    struct outcome told = {more > 0 ? FOX_REFUSED_FILE : FOX_SERVED, more > 0 ? 0 : size, {0}};
    hold_call(FILE_SIZE, &c, &told, NULL);
    c.out_len = (size_t)size;
    if (more <= 0)
        begun(FILE_WRITE, &c);
    else
        answered(FILE_WRITE, &c, FOX_REFUSED_FILE);
    c.out_len--, count = 1;
    answered(FILE_WRITE, &c, more <= 0 ? FOX_REFUSED_OUTPUT : FOX_REFUSED_FILE);
    c.data_len--, count = 1;
    answered(FILE_WRITE, &c, FOX_REFUSED_FILE);
    c.data_len += 2, count = 1;
    answered(FILE_WRITE, &c, FOX_REFUSED_FILE);
    c.counter_len--, count = 1;
    answered(FILE_WRITE, &c, FOX_REFUSED_BLOCK);
    c.key_len = FOX_LEAST_SEAL_KEY - 1, count = 1;
    answered(FILE_WRITE, &c, FOX_REFUSED_SHORT_KEY);
}

/* Lengths whose lower 32 bits would be right, of what has no memory behind it. */
static void four_gib_more(const struct sample *s)
{
    uint64_t place[FOX_PLACE_WORDS], count = 1;
    struct file_call c = call_on(s, place);
    c.out = (uint8_t *)nowhere, c.count = &count;
    c.data = nowhere, c.data_len += (size_t)1 << 32;
    answered(FILE_WRITE, &c, FOX_REFUSED_FILE);
    c = call_on(s, place), count = 1;
    c.out = (uint8_t *)nowhere, c.count = &count;
    c.key_len += (size_t)1 << 32;
    answered(FILE_WRITE, &c, FOX_REFUSED_KEY);
    c.key_len = ((size_t)1 << 32) + FOX_LEAST_SEAL_KEY - 1, count = 1;
    answered(FILE_WRITE, &c, FOX_REFUSED_KEY);
    c.key_len = s->key_len, c.counter_len += (size_t)1 << 32, count = 1;
    answered(FILE_WRITE, &c, FOX_REFUSED_BLOCK);
}

static void lengths_of_files(void)
{
    group_begin("1,073,741,824 bytes before the line `close`, less and more, with no memory there: told, written");
    make_nowhere();
    for (size_t i = 0; i < VECTORS; i++) {
        for (int64_t more = -1; more <= 2; more++)
            written_nowhere(&vectors[i], more);
        four_gib_more(&vectors[i]);
    }
    group_end();
}

/* The header ends where memory does. At the limit what follows is looked at; above it nothing is, and what is wrong
 * with the header comes first. */
static void taken_up_nowhere(const struct sample *s, uint8_t *end)
{
    const size_t header = header_len(s), most = FOX_MOST_FILE + strlen("close=\n") + s->cipher / 4;
    const size_t above[] = {most + 1, most + 2, 2 * most, UINT32_MAX, s->file_len + ((size_t)1 << 32), (size_t)1 << 33,
                            SIZE_MAX / 2, SIZE_MAX};
    uint64_t place[FOX_PLACE_WORDS];
    struct file_call c = call_on(s, place);
    c.file = memcpy(end - header, s->file, header);
    for (size_t less = 0; less < 2; less++) {
        c.file_len = most - less;
        begun(FILE_TAKE_UP, &c);
    }
    for (size_t i = 0; i < COUNT(above); i++) {
        c.file_len = above[i];
        answered(FILE_TAKE_UP, &c, FOX_REFUSED_FILE);
        if (case_wrong(place[0] == UINT64_MAX && place[1] == 0 && place[2] == 0))
            printf("a file of %zu bytes is refused, and its place is not the end\n", above[i]);
        c.rounds++;
        answered(FILE_TAKE_UP, &c, FOX_REFUSED_HEADER);
        c.rounds = FOX_MOST_ROUNDS + 1;
        answered(FILE_TAKE_UP, &c, FOX_REFUSED_ROUNDS);
        c.rounds = s->rounds;
    }
}

static void files_taken_up(void)
{
    group_begin("files at the limit, above it, and above 4 GiB, with no memory after the header: taken up");
    uint8_t *page = (uint8_t *)nowhere;
    if (mprotect(page, PAGE, PROT_READ | PROT_WRITE) != 0)
        abort();
    for (size_t i = 0; i < VECTORS; i++)
        taken_up_nowhere(&vectors[i], page + PAGE);
    group_end();
}

/* What writing answers, and what taking up does. */
static void lengths_of_keys(void)
{
    static const struct {
        size_t key_len;
        uint32_t write, take_up;
    } keys[] = {{0, FOX_REFUSED_SHORT_KEY, FOX_SERVED},
                {FOX_LEAST_SEAL_KEY - 1, FOX_REFUSED_SHORT_KEY, FOX_SERVED},
                {FOX_LEAST_SEAL_KEY, FOX_SERVED, FOX_SERVED},
                {FOX_MOST_KEY, FOX_SERVED, FOX_SERVED},
                {FOX_MOST_KEY + 1, FOX_REFUSED_KEY, FOX_REFUSED_KEY}};
    uint64_t place[FOX_PLACE_WORDS];
    group_begin("keys of 0, 15, 16, 32 and 33 bytes");
    set_lengths(3, 20, 5);
    for (size_t i = 0; i < 2 * COUNT(keys); i++) {
        const size_t key_len = keys[i / 2].key_len;
        struct sample s = make_sample(i % 2 == 0 ? FOX64 : FOX128, FOX_LEAST_ROUNDS,
                                      key_len > FOX_MOST_KEY ? FOX_MOST_KEY : key_len, lengths, 3);
        struct file_call c = call_on(&s, place);
        c.key_len = key_len;
        uint64_t written = try_call(FILE_WRITE, &c).answer, taken_up = try_call(FILE_TAKE_UP, &c).answer;
        if (case_wrong(written == keys[i / 2].write && taken_up == keys[i / 2].take_up))
            printf("with a key of %zu bytes writing answers %" PRIu64 ", and taking up %" PRIu64 "\n", key_len, written,
                   taken_up);
        free_sample(&s);
    }
    group_end();
}

void limits(void)
{
    lengths_of_keys();
    numbers_of_scans();
    lengths_of_scans();
    lengths_of_files();
    files_taken_up();
}
