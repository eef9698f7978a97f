/* Run files: those of a folder written and read, old ones under short keys, one file changed by hand, limits, and the
 * order of refusals. */
#include "check.h"
#include "count.h"
#include "file.h"
#include "hex.h"
#include "parts.h"
#include "tally.h"

#include <stdio.h>
#include <stdlib.h>
#include <string.h>

enum { MOST_FILE = 4096, MOST_LENGTHS = 128, MANY = 65536 };

struct vector {
    uint32_t cipher, rounds;
    uint8_t key[MOST_KEY], counter[MOST_BLOCK], plain[MOST_ROW], file[MOST_FILE];
    size_t key_len, counter_len, plain_len, file_len, scans;
    uint64_t lengths[MOST_LENGTHS];
};

static const char *folder;

/* The file that is changed below, as its row was read. */
static struct vector kept;

static size_t read_file(const char *name, uint8_t *bytes, size_t room)
{
    char path[512];
    snprintf(path, sizeof path, "%s/%s", folder, name);
    FILE *file = fopen(path, "rb");
    size_t len = file == NULL ? 0 : fread(bytes, 1, room, file);
    if (file != NULL)
        fclose(file);
    return len;
}

static size_t read_lengths(const char *text, uint64_t *lengths)
{
    size_t count = 0;
    char *end;
    for (; *text != '\0' && count < MOST_LENGTHS; text = *end == ' ' ? end + 1 : end)
        lengths[count++] = strtoull(text, &end, 10);
    return count;
}

static struct vector read_vector(char **fields)
{
    struct vector v = {.cipher = number(fields[1]), .rounds = number(fields[2])};
    v.key_len = hex_read(fields[3], v.key, sizeof v.key);
    v.counter_len = hex_read(fields[4], v.counter, sizeof v.counter);
    v.scans = read_lengths(fields[5], v.lengths);
    v.plain_len = hex_read(fields[6], v.plain, sizeof v.plain);
    v.file_len = read_file(fields[0], v.file, sizeof v.file);
    return v;
}

static uint32_t write_by(int old, const struct vector *v, uint8_t *out, size_t out_len, uint64_t *count)
{
    if (old)
        return second_old_file_write(v->cipher, v->rounds, v->key, v->key_len, v->counter, v->counter_len, v->plain,
                                     v->plain_len, v->lengths, v->scans, out, out_len, count);
    return second_file_write(v->cipher, v->rounds, v->key, v->key_len, v->counter, v->counter_len, v->plain,
                             v->plain_len, v->lengths, v->scans, out, out_len, count);
}

/* By both writers; a key that is too short to seal with is served by the old one alone. */
static void written(const struct vector *v, const char *name)
{
    static uint8_t out[MOST_FILE + 1], painted[MOST_FILE + 1];
    uint64_t count;
    same_number(second_file_size(v->cipher, v->rounds, v->lengths, v->scans, &count), 0, name);
    same_number((uint32_t)count, (uint32_t)v->file_len, "size of the file");
    memset(painted, 0x5A, sizeof painted);
    for (int old = 0; old < 2; old++) {
        uint32_t refusal = old ? 0 : seal_answer(v->key_len);
        memcpy(out, painted, sizeof out);
        same_number(write_by(old, v, out, v->file_len + 1, &count), refusal, name);
        same_number((uint32_t)count, refusal == 0 ? (uint32_t)v->file_len : 0, "bytes written");
        same_bytes(out, refusal == 0 ? v->file : painted, v->file_len, name);
        same_number(out[v->file_len], 0x5A, "byte after the file");
    }
}

static uint32_t take_up(const struct vector *v, uint64_t *place)
{
    return second_file_take_up(v->cipher, v->rounds, v->key, v->key_len, v->file, v->file_len, place);
}

static uint32_t read_scan(const struct vector *v, uint64_t *place, uint8_t *out, size_t out_len, uint64_t *count)
{
    return second_file_read(v->cipher, v->rounds, v->key, v->key_len, v->file, v->file_len, place, out, out_len, count);
}

static void same_place(const uint64_t *found, uint64_t first, uint64_t scans, uint64_t offset, const char *what)
{
    if (case_wrong(found[0] == first && found[1] == scans && found[2] == offset))
        printf("%s: another place\n", what);
}

/* Each scan is asked for its length, read into a buffer that is too long, and read; skipping it leads to the same
 * place. */
static void read_again(const struct vector *v, const char *name)
{
    uint8_t out[MOST_ROW];
    uint64_t place[PLACE_WORDS], over[PLACE_WORDS], count, offset = 0;
    same_number(take_up(v, place), 0, name);
    memcpy(over, place, sizeof over);
    for (size_t i = 0; i < v->scans; i++) {
        same_number((uint32_t)second_file_next(v->file, v->file_len, place), (uint32_t)v->lengths[i], "length");
        same_number(read_scan(v, place, out, v->lengths[i] + 1, &count), 6, "buffer too long");
        same_place(place, over[0], i, offset, "after a refusal");
        same_number(read_scan(v, place, out, v->lengths[i], &count), 0, name);
        same_number((uint32_t)count, (uint32_t)v->lengths[i], "bytes of a scan");
        same_bytes(out, v->plain + offset, v->lengths[i], "a scan");
        second_file_skip(v->file, v->file_len, over);
        offset += v->lengths[i];
        same_place(place, over[0], i + 1, offset, "after a scan");
    }
    same_number(second_file_next(v->file, v->file_len, place) == NO_SCAN, 1, "the end");
    same_number(read_scan(v, place, out, 9, &count), 0, "read at the end");
    same_number((uint32_t)count, 0, "count at the end");
    same_place(place, over[0], v->scans, offset, "at the end");
}

static void file_row(char **fields)
{
    struct vector v = read_vector(fields);
    written(&v, fields[0]);
    read_again(&v, fields[0]);
    if (strcmp(fields[0], "3.run") == 0)
        kept = v;
}

/* The kept file's scans under the first bytes of its key, with its counter block taken twice where the cipher wants so
 * much. */
static void one_old_file(uint32_t cipher, size_t key_len)
{
    struct vector v = kept;
    uint64_t count = 0;
    v.cipher = cipher, v.key_len = key_len, v.counter_len = cipher / 8;
    memcpy(v.counter + v.counter_len - kept.counter_len, kept.counter, kept.counter_len);
    same_number(write_by(1, &v, v.file, sizeof v.file, &count), 0, "an old file");
    v.file_len = (size_t)count;
    written(&v, "an old file's scans");
    read_again(&v, "an old file read");
}

static void old_files(void)
{
    group_begin("run files under keys of 0 to 15 bytes: read, and written by an old writer alone");
    for (uint32_t cipher = 64; cipher <= 128; cipher += 64)
        for (size_t key_len = 0; key_len < 16; key_len++)
            one_old_file(cipher, key_len);
    group_end();
}

/* Where the text first stands in the kept file. */
static uint8_t *find(struct vector *v, const char *text)
{
    size_t len = strlen(text);
    for (uint8_t *at = v->file; at + len <= v->file + v->file_len; at++)
        if (memcmp(at, text, len) == 0)
            return at;
    return NULL;
}

static void one_change(const char *from, const char *to, uint32_t expected)
{
    struct vector v = kept;
    uint64_t place[PLACE_WORDS];
    uint8_t *at = find(&v, from);
    same_number(at != NULL, 1, from);
    if (at == NULL)
        return;
    size_t rest = v.file_len - (size_t)(at - v.file) - strlen(from);
    memmove(at + strlen(to), at + strlen(from), rest);
    memcpy(at, to, strlen(to));
    v.file_len += strlen(to) - strlen(from);
    same_number(take_up(&v, place), expected, to);
    same_place(place, UINT64_MAX, 0, 0, "a refused file");
}

static void changes(void)
{
    static const struct {
        const char *from, *to;
        uint32_t expected;
    } all[] = {
        {"format=run", "format=Run", 11}, {"format=run\n", "format=run\r\n", 11}, {"format=run\n", "", 11},
        {"format=run\n", "\nformat=run\n", 11}, {"cipher=64", "cipher=064", 11}, {"cipher=64", "cipher=128", 11},
        {"cipher=64\nrounds=16\n", "rounds=16\ncipher=64\n", 11}, {"rounds=16", "rounds=17", 11},
        {"rounds=16", "rounds=016", 11}, {"rounds=16", "rounds=16 ", 11}, {"rounds=16", "rounds=+16", 11},
        {"counter=0E", "counter=0e", 11}, {"counter=0E", "counter=", 11}, {"counter=0E", "counter=000E", 11},
        {"counter=0E", "counter=0G", 11}, {"A8\n", "A8", 11}, {"A8\n", "A8\r\n", 11}, {"counter=0E", "counter=1E", 10},
        {"A8\n", "A8\n\n", 12}, {"scan=1", "scan=01", 12}, {"scan=1", "scan=0", 12}, {"scan=1", "scan=2", 12},
        {"scan=2", "scan=1", 12}, {"scan=3", "scan=4", 12}, {"scan=1", "Scan=1", 12}, {"scan=1\n", "", 12},
        {"bytes=8\n", "", 12}, {"bytes=8", "bytes=08", 12}, {"bytes=8", "bytes=7", 12}, {"bytes=8", "bytes=9", 12},
        {"bytes=8", "bytes=", 12}, {"bytes=8", "bytes=8\r", 12}, {"bytes=0", "bytes=00", 12},
        {"bytes=0\n\n", "bytes=0\n", 12}, {"bytes=13", "bytes=65536", 12}, {"bytes=13", "bytes=4294967309", 12},
        {"scans=4", "scans=3", 12}, {"scans=4", "scans=5", 12}, {"scans=4", "scans=04", 12}, {"scans=4\n", "", 12},
        {"scans=4", "scan=4", 12},
        {"close=7D", "close=7d", 12}, {"close=7D", "close=", 12}, {"close=7D", "close=007D", 12}, {"1A\n", "1A", 12},
        {"1A\n", "1A\n\n", 12}, {"1A\n", "1A\r\n", 12}, {"1A\n", "1A\nclose=7D2A22817B1ED01A\n", 12},
        {"close=7D", "close=7E", 10}, {"close=7D2A22817B1ED01A", "close=7D2A22817B1ED01B", 10},
    };
    group_begin("a run file changed by hand");
    for (size_t i = 0; i < COUNT(all); i++)
        one_change(all[i].from, all[i].to, all[i].expected);
    group_end();
}

static void cut_and_wrong(void)
{
    static const char header[] = "format=run\ncipher=64\nrounds=16\ncounter=0123456789ABCDEF\n";
    struct vector v = kept;
    uint64_t place[PLACE_WORDS];
    group_begin("a run file cut at every byte, and with other keys, ciphers and rounds, in the order of the refusals");
    for (v.file_len = 0; v.file_len < kept.file_len; v.file_len++)
        same_number(take_up(&v, place), v.file_len < strlen(header) ? 11 : 12, "a file cut short");
    v = kept, v.key[5] ^= 1;
    same_number(take_up(&v, place), 10, "another key");
    v = kept, v.rounds = 17, v.file[v.file_len - 1] = ' ';
    same_number(take_up(&v, place), 11, "11 before 12 and 10");
    v = kept, v.cipher = 128, v.key[0] ^= 1;
    same_number(take_up(&v, place), 11, "11 before 10");
    v = kept, v.key[0] ^= 1, v.file[v.file_len - 1] = ' ';
    same_number(take_up(&v, place), 12, "12 before 10");
    v = kept, v.key_len = 33, v.file_len = 0;
    same_number(take_up(&v, place), 3, "3 before 11");
    v.rounds = 256;
    same_number(take_up(&v, place), 2, "2 before 3");
    v.cipher = 65;
    same_number(take_up(&v, place), 1, "1 before 2");
    group_end();
}

static void one_size(uint32_t cipher, uint32_t rounds, size_t scans, uint64_t each, uint64_t last, uint64_t expected)
{
    static uint64_t lengths[MANY];
    uint64_t count;
    for (size_t i = 0; i < scans; i++)
        lengths[i] = i + 1 < scans ? each : last;
    same_number(second_file_size(cipher, rounds, lengths, scans, &count), expected == 0 ? 12 : 0, "refusal of a size");
    if (case_wrong(count == expected))
        printf("%zu scans of %llu and %llu bytes: found a size of %llu\n", scans, (unsigned long long)each,
               (unsigned long long)last, (unsigned long long)count);
}

/* Sizes that were worked out by hand; at the limit 1,073,741,824 bytes and the line `close`, of 23 or 39. */
static void sizes(void)
{
    group_begin("sizes of run files at the limits");
    one_size(64, 16, 0, 0, 0, 87);
    one_size(128, 16, 0, 0, 0, 120);
    one_size(64, 255, 1, 0, 0, 104);
    one_size(64, 16, 1, 0, 65536, 65643);
    one_size(64, 16, 1, 0, 65537, 0);
    one_size(64, 16, 2, 65537, 0, 0);
    one_size(64, 16, 1, 0, UINT64_MAX, 0);
    one_size(64, 16, 65535, 0, 0, 1299685);
    one_size(64, 16, 65536, 0, 0, 0);
    one_size(64, 16, 16379, 65536, 11158, 1073741847);
    one_size(64, 16, 16379, 65536, 11159, 0);
    one_size(128, 255, 16379, 65536, 11140, 1073741863);
    one_size(128, 255, 16379, 65536, 11141, 0);
    group_end();
}

/* The refusal of a write with all faults from the one given on: 1, 2, 3, 13, 4, 12 and 6. A key is too long for 3, and
 * after it too short for 13. */
static void write_order(void)
{
    static const uint32_t faults[] = {1, 2, 3, 13, 4, 12, 6};
    uint8_t out[MOST_FILE], painted[MOST_FILE];
    group_begin("refusals of a writer in their order, nothing written");
    memset(out, 0x5A, sizeof out);
    memcpy(painted, out, sizeof out);
    for (size_t from = 0; from < COUNT(faults); from++) {
        uint64_t count = 7;
        uint32_t found = second_file_write(from <= 0 ? 63 : 64, from <= 1 ? 11 : 16, kept.key,
                                           from <= 2 ? 33 : from == 3 ? 15 : 16, kept.counter, from <= 4 ? 16 : 8,
                                           kept.plain, kept.plain_len - (from <= 5), kept.lengths, kept.scans, out,
                                           kept.file_len - 1, &count);
        same_number(found, faults[from], "refusal");
        same_number((uint32_t)count, 0, "count");
    }
    same_bytes(out, painted, sizeof out, "output of refused calls");
    group_end();
}

void check_files(const char *path)
{
    char list[512];
    folder = path;
    snprintf(list, sizeof list, "%s/LIST.csv", path);
    rows(list, 7, 9, file_row);
    old_files();
    changes();
    cut_and_wrong();
    sizes();
    write_order();
}
