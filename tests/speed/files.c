/* The speed of run files: taken up, beside the test of a tag over the same bytes; written, beside a run and a tag one
 * after the other; of many empty scans, beside fewer of them; a long scan skipped, beside an empty one. */
#include "files.h"
#include "chance.h"
#include "count.h"
#include "fox.h"
#include "pairs.h"

#include <stdio.h>
#include <string.h>

enum { ROUNDS = 16, KEY_LEN = 16, DATA = 1 << 20, ROOM = 1 << 21, KEPT = 4 };

/* What is asked: for a file that is taken up the rate of the test of its tag; for one that is written at most a tenth
 * more time than for run and tag; for many empty scans the rate for few, by the byte; and for a long scan that is
 * skipped about the time for an empty one: its length has four digits more. */
static const double take_up_asked = 0.9, write_asked = 1 / 1.1, linear_asked = 0.8, skip_asked = 0.5;

static uint8_t key[KEY_LEN], counter[FOX128_BLOCK], data[DATA], sealed[ROOM];
static uint32_t cipher;

/* Files, by whose number each work is done. */
static struct kept {
    size_t scans, data_len, tagged;
    uint64_t lengths[FOX_MOST_SCANS], size, first[FOX_PLACE_WORDS];
    uint8_t tag[FOX128_BLOCK], file[ROOM];
} kept[KEPT];

static uint32_t write_file(uint64_t which, size_t len)
{
    struct kept *k = &kept[which];
    (void)len;
    return fox_file_write(cipher, ROUNDS, key, KEY_LEN, counter, cipher / 8, data, k->data_len, k->lengths, k->scans,
                          k->file, ROOM, &k->size);
}

static uint32_t take_up(uint64_t which, size_t len)
{
    struct kept *k = &kept[which];
    (void)len;
    return fox_file_take_up(cipher, ROUNDS, key, KEY_LEN, k->file, (size_t)k->size, k->first);
}

static uint32_t test_tag(uint64_t which, size_t len)
{
    const struct kept *k = &kept[which];
    (void)len;
    return fox_server_test_tag(cipher, ROUNDS, key, KEY_LEN, k->file, k->tagged, k->tag, cipher / 8);
}

/* In calls as long as they may be, and then the tag of as many bytes as the file has before its line `close`. */
static uint32_t run_and_tag(uint64_t which, size_t len)
{
    const struct kept *k = &kept[which];
    uint8_t tag[FOX128_BLOCK];
    uint32_t refusal = FOX_SERVED;
    (void)len;
    for (size_t at = 0; at < k->data_len && refusal == FOX_SERVED; at += FOX_MOST_DATA) {
        size_t piece = k->data_len - at < FOX_MOST_DATA ? k->data_len - at : FOX_MOST_DATA;
        refusal = fox_server_seal_run(cipher, ROUNDS, key, KEY_LEN, counter, cipher / 8, at, data + at, piece,
                                      sealed + at, piece);
    }
    if (refusal != FOX_SERVED)
        return refusal;
    return fox_server_make_tag(cipher, ROUNDS, key, KEY_LEN, sealed, k->tagged, tag, cipher / 8);
}

static uint32_t skip_all(uint64_t which, size_t len)
{
    const struct kept *k = &kept[which];
    uint64_t place[FOX_PLACE_WORDS];
    (void)len;
    memcpy(place, k->first, sizeof place);
    for (size_t i = 0; i < k->scans; i++)
        fox_file_skip(k->file, (size_t)k->size, place);
    return (uint32_t)(k->scans - place[1]);
}

/* The first scan alone. */
static uint32_t skip_one(uint64_t which, size_t len)
{
    const struct kept *k = &kept[which];
    uint64_t place[FOX_PLACE_WORDS];
    (void)len;
    memcpy(place, k->first, sizeof place);
    fox_file_skip(k->file, (size_t)k->size, place);
    return (uint32_t)(place[1] - 1);
}

/* Makes the file of so many scans of this length, and sees that it is taken up and skipped through. */
static int keep(uint64_t which, size_t scans, uint64_t length)
{
    struct kept *k = &kept[which];
    k->scans = scans;
    k->data_len = (size_t)(scans * length);
    for (size_t i = 0; i < scans; i++)
        k->lengths[i] = length;
    int right = write_file(which, 0) == FOX_SERVED && take_up(which, 0) == FOX_SERVED && skip_all(which, 0) == 0;
    k->tagged = (size_t)k->size - cipher / 4 - strlen("close=\n");
    right = right && fox_server_make_tag(cipher, ROUNDS, key, KEY_LEN, k->file, k->tagged, k->tag, cipher / 8) == 0;
    if (!right)
        printf("speed: FOX%u: a file of %zu scans of %u bytes is refused\n", (unsigned)cipher, scans, (unsigned)length);
    return right;
}

static int show_length(uint64_t length)
{
    char taking[40], writing[40];
    if (!keep(0, (size_t)(DATA / length), length))
        return 0;
    snprintf(taking, sizeof taking, "take-up, scans of %u", (unsigned)length);
    snprintf(writing, sizeof writing, "file written, scans of %u", (unsigned)length);
    const size_t len = kept[0].tagged;
    const struct side taken = {taking, take_up, 0, len}, tested = {"test of tag", test_tag, 0, len};
    const struct side written = {writing, write_file, 0, len}, apart = {"run and tag", run_and_tag, 0, len};
    show(&taken, &tested, take_up_asked, EVERYWHERE);
    show(&written, &apart, write_asked, EVERYWHERE);
    return 1;
}

/* About as many as may be, an eighth of them, and what is between. */
static int show_empty_scans(void)
{
    static const struct {
        size_t scans;
        const char *taken, *skipped;
    } many[KEPT] = {{8191, "take-up, 8,191 scans", "skipping 8,191 scans"},
                    {16383, "take-up, 16,383 scans", "skipping 16,383 scans"},
                    {32767, "take-up, 32,767 scans", "skipping 32,767 scans"},
                    {65535, "take-up, 65,535 scans", "skipping 65,535 scans"}};
    for (size_t i = 0; i < KEPT; i++)
        if (!keep(i, many[i].scans, 0))
            return 0;
    for (size_t i = 1; i < KEPT; i++) {
        const size_t len = kept[i].tagged, short_len = kept[0].tagged;
        const struct side taken = {many[i].taken, take_up, i, len}, few_taken = {"8,191", take_up, 0, short_len};
        const struct side skipped = {many[i].skipped, skip_all, i, len}, few = {"8,191", skip_all, 0, short_len};
        show(&taken, &few_taken, linear_asked, EVERYWHERE);
        show(&skipped, &few, linear_asked, EVERYWHERE);
    }
    return 1;
}

static int show_skipping(void)
{
    if (!keep(0, 2, FOX_MOST_SCAN) || !keep(1, 2, 0))
        return 0;
    const struct side of_long = {"skipping a scan of 65,536", skip_one, 0, 1}, of_empty = {"of 0", skip_one, 1, 1};
    show(&of_long, &of_empty, skip_asked, EVERYWHERE);
    return 1;
}

int show_files(void)
{
    chance_from(4);
    fill(key, sizeof key);
    fill(counter, sizeof counter);
    fill(data, sizeof data);
    for (cipher = FOX64; cipher <= FOX128; cipher += FOX64) {
        show_setting(cipher, KEY_LEN);
        if (!show_length(FOX_MOST_SCAN) || !show_length(1000) || !show_empty_scans() || !show_skipping())
            return 0;
    }
    return 1;
}
