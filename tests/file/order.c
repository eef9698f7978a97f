/* Spoilt calls: of all that is wrong with one, what is looked for first is answered, and nothing is changed. */
#include "call.h"
#include "chance.h"
#include "count.h"
#include "groups.h"
#include "sample.h"
#include "tally.h"
#include "text.h"
#include "try.h"

#include <string.h>

enum { TIMES = 5, MORE = 64 };

/* What the call at hand is lent, where spoils change it. */
static const struct sample *sample;
static struct text text;
static uint64_t lengths[FOX_MOST_SCANS + 1], place[FOX_PLACE_WORDS];
static uint8_t data[MOST_ROOM];

static void spoil_cipher(struct file_call *c)
{
    static const uint32_t ciphers[] = {0, FOX64 - 1, FOX64 + 1, FOX128 - 1, FOX128 + 1, 256 + FOX64, UINT32_MAX};
    c->cipher = ONE_OF(ciphers);
}

static void spoil_rounds(struct file_call *c)
{
    static const uint32_t rounds[] = {0, FOX_LEAST_ROUNDS - 1, FOX_MOST_ROUNDS + 1, 256 + 16, UINT32_MAX};
    c->rounds = ONE_OF(rounds);
}

static void spoil_key(struct file_call *c)
{
    static const size_t more[] = {FOX_MOST_KEY + 1, FOX_MOST_KEY + 2, SAMPLE_ROOM};
    c->key_len = ONE_OF(more);
}

/* Too short to seal with; a key that is spoilt in both ways is long, since a set is put in from its last one on. */
static void spoil_seal_key(struct file_call *c)
{
    static const size_t less[] = {0, 1, 4, 8, FOX_LEAST_SEAL_KEY - 2, FOX_LEAST_SEAL_KEY - 1};
    c->key_len = ONE_OF(less);
}

static void spoil_counter_len(struct file_call *c)
{
    const size_t b = block_of(sample->cipher), other = FOX64_BLOCK + FOX128_BLOCK - b;
    const size_t lens[] = {0, 1, b - 1, b + 1, other, 2 * b};
    c->counter_len = ONE_OF(lens);
}

/* Too many scans, or one that is too long; of two that are longer by half of 2 to the 64 the sum would wrap to the
 * right one. */
static void spoil_scans(struct file_call *c)
{
    switch (c->scans < 2 ? below(2) : below(4)) {
    case 0:
        c->scans = FOX_MOST_SCANS + 1;
        break;
    case 1:
        lengths[c->scans] = FOX_MOST_SCAN + 1 + below(3);
        c->scans++;
        break;
    case 2:
        lengths[0] += 1ull << 63, lengths[1] += 1ull << 63;
        break;
    default:
        lengths[c->scans - 1] = below(2) == 0 ? UINT64_MAX : (1ull << 32) + lengths[c->scans - 1];
    }
}

static void spoil_sum(struct file_call *c)
{
    switch (below(3)) {
    case 0:
        c->data_len += 1 + below(MORE);
        break;
    case 1:
        c->data_len = c->data_len == 0 ? 1 : below(c->data_len);
        break;
    default:
        spoil_scans(c);
    }
}

static void spoil_room(struct file_call *c)
{
    c->out_len = below(2) == 0 ? sample->file_len - 1 : below(sample->file_len);
}

/* Before the counter's digits; or they are of another cipher, or other rounds, than the call's. */
static void spoil_header(struct file_call *c)
{
    size_t fixed = header_len(sample) - 2 * block_of(sample->cipher) - 1;
    switch (below(4)) {
    case 0:
        c->cipher = sample->cipher == FOX64 ? FOX128 : FOX64;
        break;
    case 1:
        c->rounds = sample->rounds == FOX_MOST_ROUNDS ? FOX_LEAST_ROUNDS : sample->rounds + 1;
        break;
    case 2:
        text.bytes[header_len(sample) - 1] = '\r';
        break;
    default:
        text.bytes[below(fixed)] ^= (uint8_t)(1 << below(8));
    }
}

/* At the file's end: its last line feed is another byte, is not there, or is not the last; or `scans=` is spoilt. */
static void spoil_rest(struct file_call *c)
{
    size_t close = 2 * block_of(sample->cipher) + strlen("close=\n");
    switch (below(4)) {
    case 0:
        text.bytes[text.len - 1] = ' ';
        break;
    case 1:
        c->file_len = --text.len;
        break;
    case 2:
        text_add(&text, "\n", 1);
        c->file_len = text.len;
        break;
    default:
        text.bytes[text.len - close - 2] ^= (uint8_t)(1 << below(8));
    }
}

/* A bit of the key, its length, which may come out as one that is too short to seal with, a digit of the tag, or one of
 * the counter block. */
static void spoil_tag(struct file_call *c)
{
    static uint8_t key[SAMPLE_ROOM];
    size_t digits = 2 * block_of(sample->cipher);
    uint8_t *digit = text.bytes + (below(2) == 0 ? text.len : header_len(sample)) - 1 - digits + below(digits);
    switch (c->key_len == 0 ? 2 : below(4)) {
    case 0:
        memcpy(key, sample->key, sizeof key);
        key[below(c->key_len)] ^= (uint8_t)(1 << below(8));
        c->key = key;
        break;
    case 1:
        c->key_len = below(c->key_len);
        break;
    default:
        *digit = *digit == '0' ? 'F' : '0';
    }
}

/* The header's counter line, which is all of the header that reading looks at. */
static void spoil_counter_line(struct file_call *c)
{
    size_t b = block_of(sample->cipher), from = header_len(sample) - 2 * b - 1 - strlen("counter=");
    if (below(2) == 0)
        c->cipher = sample->cipher == FOX64 ? FOX128 : FOX64;
    else
        text.bytes[from + below(2 * b + strlen("counter="))] = below(2) == 0 ? 'x' : '\n';
}

static void spoil_scan_room(struct file_call *c)
{
    static const size_t more[] = {1, 2, FOX_MOST_SCAN};
    c->out_len = c->out_len > 0 && below(2) == 0 ? below(c->out_len) : c->out_len + ONE_OF(more);
}

/* Not so far that no scan would be there. */
static void spoil_offset(struct file_call *c)
{
    c->place[2] = FOX_RUN_END - below(sample->lengths[0]);
}

struct spoil {
    uint32_t number;
    void (*change)(struct file_call *);
};

/* In the order in which a call looks for what it refuses. A set of spoils is put in from its last one on. */
static const struct spoil of_size[] = {
    {FOX_REFUSED_CIPHER, spoil_cipher}, {FOX_REFUSED_ROUNDS, spoil_rounds}, {FOX_REFUSED_FILE, spoil_scans}};
static const struct spoil of_write[] = {
    {FOX_REFUSED_CIPHER, spoil_cipher},      {FOX_REFUSED_ROUNDS, spoil_rounds},
    {FOX_REFUSED_KEY, spoil_key},            {FOX_REFUSED_SHORT_KEY, spoil_seal_key},
    {FOX_REFUSED_BLOCK, spoil_counter_len},  {FOX_REFUSED_FILE, spoil_sum},
    {FOX_REFUSED_OUTPUT, spoil_room}};
static const struct spoil of_take_up[] = {
    {FOX_REFUSED_CIPHER, spoil_cipher},  {FOX_REFUSED_ROUNDS, spoil_rounds}, {FOX_REFUSED_KEY, spoil_key},
    {FOX_REFUSED_HEADER, spoil_header}, {FOX_REFUSED_FILE, spoil_rest},     {FOX_REFUSED_TAG, spoil_tag}};
static const struct spoil of_read[] = {
    {FOX_REFUSED_CIPHER, spoil_cipher},      {FOX_REFUSED_ROUNDS, spoil_rounds},     {FOX_REFUSED_KEY, spoil_key},
    {FOX_REFUSED_BLOCK, spoil_counter_line}, {FOX_REFUSED_OUTPUT, spoil_scan_room}, {FOX_REFUSED_END, spoil_offset}};

/* A call that is served; the scan that is read is the first. */
static struct file_call served(enum file_verb verb)
{
    text_set(&text, sample->file, sample->file_len);
    memcpy(lengths, sample->lengths, sample->scans * sizeof *lengths);
    memcpy(data, sample->data, sample->data_len);
    struct file_call c = call_with(&text, sample, place);
    c.lengths = lengths, c.data = data;
    if (verb == FILE_READ)
        c.out_len = (size_t)sample->lengths[0];
    return c;
}

/* Every set of the spoils but the empty one, by the bits of a number. At the end of a file a reader refuses nothing. */
static void every_set(enum file_verb verb, const struct spoil *spoils, size_t count)
{
    for (unsigned chosen = 1; chosen < 1u << count; chosen++) {
        struct file_call c = served(verb);
        uint32_t first = FOX_SERVED;
        for (size_t i = count; i-- > 0;)
            if ((chosen >> i & 1) != 0) {
                spoils[i].change(&c);
                first = spoils[i].number;
            }
        hold_refused(verb, &c, first);
        if (verb == FILE_READ) {
            place[0] = UINT64_MAX;
            hold_refused(verb, &c, FOX_SERVED);
        }
    }
}

/* Of what opens a file; its key may have any length. */
static void refused_openings(void)
{
    every_set(FILE_TAKE_UP, of_take_up, COUNT(of_take_up));
    if (sample->scans > 0 && sample->lengths[0] > 0)
        every_set(FILE_READ, of_read, COUNT(of_read));
}

void refusals(void)
{
    group_begin("refusals, every set of faults at once, nothing changed");
    for (size_t i = 0; i < VECTORS * TIMES; i++) {
        sample = &vectors[i % VECTORS];
        every_set(FILE_SIZE, of_size, COUNT(of_size));
        every_set(FILE_WRITE, of_write, COUNT(of_write));
        refused_openings();
    }
    for (size_t i = 0; i < OLD_FILES; i++) {
        sample = &old_files[i];
        refused_openings();
    }
    group_end();
}
