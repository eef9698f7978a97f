/* Right files: those of the vectors and old ones, held to their own bytes, and files by chance, held to the second
 * implementation. */
#include "chance.h"
#include "count.h"
#include "file.h"
#include "groups.h"
#include "sample.h"
#include "tally.h"
#include "try.h"

#include <inttypes.h>
#include <stdio.h>
#include <string.h>

enum { PAST_END = 3 };

/* The file's length is told, and the file written into an output of this length and longer ones, and not into others;
 * under a key that is too short to seal with it is told too, and written into none. */
static void told_and_written(const struct sample *s)
{
    const size_t len = s->file_len, out_lens[] = {len, len + 1, len + 2, len + 100, len - 1, len - 2, len - 23, 0};
    const int short_key = s->key_len < FOX_LEAST_SEAL_KEY;
    uint64_t place[FOX_PLACE_WORDS];
    struct file_call c = call_on(s, place);
    const struct outcome right = {FOX_SERVED, len, {0}};
    hold_call(FILE_SIZE, &c, &right, NULL);
    for (size_t i = 0; i < COUNT(out_lens); i++) {
        c.out_len = out_lens[i];
        if (c.out_len >= len && !short_key)
            hold_call(FILE_WRITE, &c, &right, s->file);
        else
            hold_refused(FILE_WRITE, &c, short_key ? FOX_REFUSED_SHORT_KEY : FOX_REFUSED_OUTPUT);
    }
}

static void held_at(enum file_verb verb, const struct file_call *c, uint64_t answer, uint64_t count,
                    const uint64_t *after, const uint8_t *bytes)
{
    struct outcome right = {answer, count, {after[0], after[1], after[2]}};
    hold_call(verb, c, &right, bytes);
}

/* The scan at the call's place is read into its own length and into no other, and skipped; then the place is moved
 * on. */
static void one_scan(struct file_call *c, uint64_t len, const uint8_t *plain)
{
    const uint64_t lengths[] = {0, len - 1, len + 1, len + FOX_MOST_SCAN};
    const uint64_t number = c->place[1] + 1;
    uint64_t after[FOX_PLACE_WORDS] = {0, number, c->place[2] + len};
    after[0] = c->place[0] + len + 1;
    after[0] += (uint64_t)snprintf(NULL, 0, "scan=%" PRIu64 "\nbytes=%" PRIu64 "\n", number, len);
    held_at(FILE_NEXT, c, len, 0, c->place, NULL);
    for (size_t i = 0; i < COUNT(lengths); i++) {
        c->out_len = (size_t)lengths[i];
        if (lengths[i] != len && lengths[i] <= len + FOX_MOST_SCAN)
            hold_refused(FILE_READ, c, FOX_REFUSED_OUTPUT);
    }
    c->out_len = (size_t)len;
    held_at(FILE_READ, c, FOX_SERVED, len, after, plain);
    held_at(FILE_SKIP, c, 0, 0, after, NULL);
    memcpy(c->place, after, sizeof after);
}

/* Whatever is asked there, and however often. */
static void at_end(struct file_call *c)
{
    static const size_t out_lens[PAST_END] = {0, 1, 50};
    for (size_t i = 0; i < PAST_END; i++) {
        c->out_len = out_lens[i];
        held_at(FILE_NEXT, c, FOX_NO_SCAN, 0, c->place, NULL);
        held_at(FILE_READ, c, FOX_SERVED, 0, c->place, NULL);
        held_at(FILE_SKIP, c, 0, 0, c->place, NULL);
    }
}

static void taken_up_and_read(const struct sample *s)
{
    uint64_t place[FOX_PLACE_WORDS], offset = 0;
    struct file_call c = call_on(s, place);
    struct outcome right = {FOX_SERVED, 0, {place[0], 0, 0}};
    hold_call(FILE_TAKE_UP, &c, &right, NULL);
    for (size_t i = 0; i < s->scans; i++) {
        one_scan(&c, s->lengths[i], s->data + offset);
        offset += s->lengths[i];
    }
    at_end(&c);
}

void vector_files(void)
{
    group_begin("the files of the vectors: told, written, taken up, each scan read and skipped, and the end");
    for (size_t i = 0; i < VECTORS; i++)
        for (int times = 0; times < 2; times++) {
            told_and_written(&vectors[i]);
            taken_up_and_read(&vectors[i]);
        }
    group_end();
}

/* The second implementation's old writer, which the other groups take such files from, makes the same bytes of the
 * scans. */
static void as_old_writer(const struct sample *s)
{
    static uint8_t out[FOX_MOST_SCAN];
    uint64_t count = 0;
    uint32_t refusal = second_old_file_write(s->cipher, s->rounds, s->key, s->key_len, s->counter, s->counter_len,
                                             s->data, s->data_len, s->lengths, s->scans, out, sizeof out, &count);
    if (case_wrong(refusal == FOX_SERVED && count == s->file_len && memcmp(out, s->file, s->file_len) == 0))
        printf("the second implementation's old writer makes another file under a key of %zu bytes\n", s->key_len);
}

void given_old_files(void)
{
    group_begin("files of version 0.4.0 under keys of 0, 4, 8 and 15 bytes: taken up, each scan read and skipped");
    for (size_t i = 0; i < OLD_FILES; i++) {
        as_old_writer(&old_files[i]);
        told_and_written(&old_files[i]);
        taken_up_and_read(&old_files[i]);
    }
    group_end();
}

static uint64_t some_length(void)
{
    static const uint64_t edges[] = {0, 1, 7, 8, 9, 10, 15, 16, 17, 31, 32, 33, 99, 100, 999, 1000};
    return below(3) == 0 ? edges[below(COUNT(edges))] : below(60);
}

static void one_file(uint32_t cipher, size_t key_len, size_t scans)
{
    uint64_t lengths[128];
    for (size_t i = 0; i < scans; i++)
        lengths[i] = some_length();
    struct sample s = make_sample(cipher, FOX_LEAST_ROUNDS + (uint32_t)below(10), key_len, lengths, scans);
    told_and_written(&s);
    taken_up_and_read(&s);
    free_sample(&s);
}

void keys_of_every_length(void)
{
    enum { TIMES = 4 };
    group_begin("keys of every length: from 16 bytes on files are written, and under all of them taken up and read");
    for (size_t key_len = 0; key_len <= FOX_MOST_KEY; key_len++)
        for (size_t i = 0; i < TIMES; i++)
            one_file(i % 2 == 0 ? FOX64 : FOX128, key_len, i == 0 ? 0 : 1 + below(12));
    group_end();
}

static void some_file(size_t scans)
{
    one_file(below(2) == 0 ? FOX64 : FOX128, below(FOX_MOST_KEY + 1), scans);
}

void chance_files(void)
{
    enum { FILES = 150 };
    group_begin("files by chance, as the second implementation writes them: told, written, taken up, read and skipped");
    for (size_t i = 0; i < FILES; i++)
        some_file(i < 12 ? i : below(20));
    for (size_t scans = 97; scans < 103; scans++)
        some_file(scans);
    group_end();
}
