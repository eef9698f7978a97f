/* Run files of the vectors, old ones, and by chance. */
#include "sample.h"
#include "call.h"
#include "chance.h"
#include "file.h"
#include "hex.h"
#include "rows.h"
#include "tally.h"

#include <stdio.h>
#include <stdlib.h>
#include <string.h>

enum { MOST_VECTOR = 4096, FIELDS = 7 };

struct sample vectors[VECTORS], old_files[OLD_FILES];
static const char *folder;
static size_t vectors_read, old_read;

static void *some(size_t size)
{
    void *bytes = malloc(size == 0 ? 1 : size);
    if (bytes == NULL)
        abort();
    return bytes;
}

static size_t read_file(const char *name, uint8_t *bytes, size_t room)
{
    char path[512];
    snprintf(path, sizeof path, "%s/%s", folder, name);
    FILE *file = fopen(path, "rb");
    if (file == NULL)
        return 0;
    size_t len = fread(bytes, 1, room, file);
    fclose(file);
    return len;
}

static size_t read_lengths(const char *text, uint64_t *lengths, size_t room)
{
    size_t count = 0;
    char *end;
    for (; *text != '\0' && count < room; text = *end == ' ' ? end + 1 : end)
        lengths[count++] = strtoull(text, &end, 10);
    return count;
}

/* All but the file itself, which the row's first field is about. */
static int read_row(struct sample *s, char **field)
{
    s->lengths = some(MOST_VECTOR), s->data = some(MOST_VECTOR), s->file = some(MOST_VECTOR);
    if (field == NULL || !hex_read_all(field[3], s->key, sizeof s->key, &s->key_len) ||
        !hex_read_all(field[4], s->counter, sizeof s->counter, &s->counter_len) ||
        !hex_read_all(field[6], s->data, MOST_VECTOR, &s->data_len))
        return 0;
    s->cipher = (uint32_t)strtoul(field[1], NULL, 10);
    s->rounds = (uint32_t)strtoul(field[2], NULL, 10);
    s->scans = read_lengths(field[5], s->lengths, MOST_VECTOR / sizeof *s->lengths);
    return 1;
}

/* One case: the row was read, and is of a file under a short key, or under another. */
static int row_read(const struct sample *s, int read, int short_key)
{
    int right = read && s->file_len > 0 && s->file_len < MOST_VECTOR && (s->key_len < FOX_LEAST_SEAL_KEY) == short_key;
    if (case_wrong(right))
        printf("a row, or the file that it names, cannot be read, or has a key of another length\n");
    return right;
}

static void row(const struct engine *engine, char **field)
{
    struct sample *s = &vectors[vectors_read % VECTORS];
    int read = read_row(s, field);
    (void)engine;
    if (read)
        s->file_len = read_file(field[0], s->file, MOST_VECTOR);
    if (row_read(s, read, 0))
        vectors_read++;
}

static void old_row(const struct engine *engine, char **field)
{
    struct sample *s = &old_files[old_read % OLD_FILES];
    int read = read_row(s, field) && hex_read_all(field[0], s->file, MOST_VECTOR, &s->file_len);
    (void)engine;
    if (row_read(s, read, 1))
        old_read++;
}

void read_samples(const char *path, const char *old_list)
{
    char list[512];
    folder = path;
    snprintf(list, sizeof list, "%s/LIST.csv", path);
    group_begin("the lists %s and %s", list, old_list);
    each_row(list, VECTORS, FIELDS, NULL, row);
    each_row(old_list, OLD_FILES, FIELDS, NULL, old_row);
    group_end();
    if (vectors_read != VECTORS || old_read != OLD_FILES)
        exit(tally_end());
}

static void write_file(struct sample *s)
{
    uint64_t size, count;
    if (second_file_size(s->cipher, s->rounds, s->lengths, s->scans, &size) != 0)
        abort();
    s->file_len = (size_t)size;
    s->file = some(s->file_len);
    if (second_old_file_write(s->cipher, s->rounds, s->key, s->key_len, s->counter, s->counter_len, s->data,
                              s->data_len, s->lengths, s->scans, s->file, s->file_len, &count) != 0 || count != size)
        abort();
}

struct sample make_sample(uint32_t cipher, uint32_t rounds, size_t key_len, const uint64_t *lengths, size_t scans)
{
    struct sample s = {.cipher = cipher, .rounds = rounds, .key_len = key_len, .counter_len = block_of(cipher)};
    s.scans = scans;
    s.lengths = some(scans * sizeof *lengths);
    for (size_t i = 0; i < scans; i++) {
        s.lengths[i] = lengths[i];
        s.data_len += (size_t)lengths[i];
    }
    s.data = some(s.data_len);
    fill(s.key, sizeof s.key);
    fill(s.counter, sizeof s.counter);
    fill(s.data, s.data_len);
    write_file(&s);
    return s;
}

void free_sample(struct sample *s)
{
    free(s->lengths);
    free(s->data);
    free(s->file);
}

size_t header_len(const struct sample *s)
{
    size_t at = 0;
    for (int lines = 0; lines < 4; at++)
        lines += s->file[at] == '\n';
    return at;
}

struct file_call call_on(const struct sample *s, uint64_t *place)
{
    place[0] = header_len(s), place[1] = place[2] = 0;
    return (struct file_call){.cipher = s->cipher, .rounds = s->rounds, .key = s->key, .key_len = s->key_len,
                              .counter = s->counter, .counter_len = s->counter_len, .data = s->data,
                              .data_len = s->data_len, .lengths = s->lengths, .scans = s->scans, .file = s->file,
                              .file_len = s->file_len, .place = place, .out_len = s->file_len};
}
