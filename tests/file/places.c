/* Where a reader stands: at the end, far on, and where no call has put it. */
#include "chance.h"
#include "count.h"
#include "groups.h"
#include "sample.h"
#include "tally.h"
#include "text.h"
#include "try.h"

#include <inttypes.h>
#include <stdio.h>
#include <string.h>

enum { MANY = 9100, FAR = 9000 };

static struct text text;

/* Nothing but the end comes, however often and with whatever buffer. */
static void only_end(struct file_call *c)
{
    const struct outcome next = {FOX_NO_SCAN, 0, {c->place[0], c->place[1], c->place[2]}};
    struct outcome other = next;
    other.answer = FOX_SERVED;
    for (size_t i = 0; i < 9; i++) {
        c->out_len = i * i;
        hold_call(FILE_NEXT, c, &next, NULL);
        hold_call(FILE_READ, c, &other, NULL);
        hold_call(FILE_SKIP, c, &other, NULL);
    }
}

/* A reader of a file that was refused, in that file and in the right one. */
static void refused_reader(const struct sample *s, struct file_call c, uint32_t number)
{
    uint64_t answer = caught_call(FILE_TAKE_UP, &c);
    if (case_wrong(answer == number))
        printf("a file is answered with %" PRIu64 ", and not with %" PRIu32 "\n", answer, number);
    only_end(&c);
    c.cipher = s->cipher, c.rounds = s->rounds, c.key_len = s->key_len, c.file = s->file, c.file_len = s->file_len;
    only_end(&c);
}

static void refused_readers(const struct sample *s)
{
    uint64_t place[FOX_PLACE_WORDS];
    struct file_call c = call_on(s, place);
    c.cipher++;
    refused_reader(s, c, FOX_REFUSED_CIPHER);
    c = call_on(s, place), c.rounds = FOX_MOST_ROUNDS + 1;
    refused_reader(s, c, FOX_REFUSED_ROUNDS);
    c = call_on(s, place), c.key_len = FOX_MOST_KEY + 1;
    refused_reader(s, c, FOX_REFUSED_KEY);
    c = call_on(s, place), c.rounds++;
    refused_reader(s, c, FOX_REFUSED_HEADER);
    c = call_on(s, place), c.file_len--;
    refused_reader(s, c, FOX_REFUSED_FILE);
    text_set(&text, s->file, s->file_len);
    text.bytes[text.len - 2] = text.bytes[text.len - 2] == '0' ? '1' : '0';
    c = call_with(&text, s, place);
    refused_reader(s, c, FOX_REFUSED_TAG);
}

/* A reader that has skipped all scans. */
static void at_end(const struct sample *s)
{
    uint64_t place[FOX_PLACE_WORDS];
    struct file_call c = call_on(s, place);
    for (size_t i = 0; i < s->scans; i++)
        caught_call(FILE_SKIP, &c);
    only_end(&c);
}

void ends(void)
{
    group_begin("a refused reader, and one at the end, yield only the end, again and again");
    for (size_t i = 0; i < VECTORS; i++) {
        refused_readers(&vectors[i]);
        at_end(&vectors[i]);
    }
    group_end();
}

/* By the library alone, since these calls are many. */
static void far_on(const struct sample *s)
{
    uint8_t out[64];
    uint64_t place[FOX_PLACE_WORDS], count = 0, offset = 0;
    struct file_call c = call_on(s, place);
    c.out = out, c.count = &count;
    uint64_t answer = caught_call(FILE_TAKE_UP, &c);
    for (size_t i = 0; i < FAR - 1; i++) {
        caught_call(FILE_SKIP, &c);
        offset += s->lengths[i];
    }
    c.out_len = (size_t)s->lengths[FAR - 1];
    uint64_t length = caught_call(FILE_NEXT, &c), read = caught_call(FILE_READ, &c);
    if (case_wrong(answer == FOX_SERVED && length == c.out_len && read == FOX_SERVED && count == length &&
                   memcmp(out, s->data + offset, c.out_len) == 0 && place[1] == FAR && place[2] == offset + length))
        printf("scan %d alone comes out otherwise\n", FAR);
}

static void in_order(const struct sample *s)
{
    uint8_t out[64];
    uint64_t place[FOX_PLACE_WORDS], count = 0, offset = 0;
    struct file_call c = call_on(s, place);
    size_t scans = 0, right = 0;
    c.out = out, c.count = &count;
    for (uint64_t len; scans <= s->scans && (len = caught_call(FILE_NEXT, &c)) <= sizeof out; scans++) {
        c.out_len = (size_t)len;
        right += caught_call(FILE_READ, &c) == FOX_SERVED && scans < s->scans && count == s->lengths[scans] &&
                 memcmp(out, s->data + offset, c.out_len) == 0;
        offset += len;
    }
    if (case_wrong(scans == s->scans && right == scans && offset == s->data_len))
        printf("of %zu scans %zu come, and %zu of them are right\n", s->scans, scans, right);
}

void far_scan(void)
{
    static uint64_t lengths[MANY];
    group_begin("scan 9,000 alone, by skipping; 9,100 scans in order, each once");
    for (uint32_t cipher = FOX64; cipher <= FOX128; cipher += FOX64) {
        for (size_t i = 0; i < MANY; i++)
            lengths[i] = i == FAR - 1 ? 41 : below(12);
        struct sample s = make_sample(cipher, FOX_LEAST_ROUNDS, 16, lengths, MANY);
        far_on(&s);
        in_order(&s);
        free_sample(&s);
    }
    group_end();
}

/* A file that has a scan with a number of any size, at a place in it that is answered. */
static size_t odd_file(const struct sample *s, uint64_t number)
{
    uint8_t bytes[40];
    size_t len = below(sizeof bytes + 1), at;
    fill(bytes, sizeof bytes);
    text_set(&text, s->file, below(3) == 0 ? below(s->file_len + 1) : header_len(s));
    at = text.len;
    text_print(&text, "scan=%" PRIu64 "\nbytes=%zu\n", number, len);
    text_add(&text, bytes, len);
    if (below(8) != 0)
        text_print(&text, "\n");
    return at;
}

static uint64_t odd_number(uint64_t right)
{
    const uint64_t odd[] = {right - 1, right + 1, 0, 65534, 65535, 65536, UINT32_MAX, right + (1ull << 32), 1ull << 63,
                            UINT64_MAX, UINT64_MAX - 1, text.len, text.len + 1, FOX_RUN_END - 40, FOX_RUN_END,
                            FOX_RUN_END + 1ull};
    return below(3) != 0 ? right : odd[below(COUNT(odd))];
}

/* What is promised of such a place is that calls end and keep within what they were lent. What they answer is in the
 * definitions, though no caller can rely on it, and the second implementation has it from there. */
void made_up_places(void)
{
    static const uint64_t numbers[] = {1, 2, 9, 10, 99, 100, 9999, 10000, 65534, 65535, 65536, 65537, 100000};
    enum { PLACES = 6000 };
    group_begin("places that a caller made up");
    for (int i = 0; i < PLACES; i++) {
        const struct sample *s = &vectors[below(VECTORS)];
        uint64_t place[FOX_PLACE_WORDS], number = numbers[below(COUNT(numbers))], right;
        size_t at = odd_file(s, number);
        struct file_call c = call_with(&text, s, place);
        place[0] = odd_number(at), place[1] = odd_number(number - 1);
        place[2] = below(2) == 0 ? FOX_RUN_END - below(80) : odd_number(below(1000));
        right = try_call(FILE_NEXT, &c).answer;
        c.out_len = right == FOX_NO_SCAN || below(4) == 0 ? below(50) : (size_t)right;
        c.cipher = below(8) == 0 ? FOX64 + FOX128 - c.cipher : c.cipher;
        c.key_len = below(4) == 0 ? below(FOX_LEAST_SEAL_KEY) : c.key_len;
        try_call(FILE_READ, &c);
        try_call(FILE_SKIP, &c);
    }
    group_end();
}
