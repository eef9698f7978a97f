/* Broken files: each is refused with the number that the second implementation gives, and served only where that serves
 * it. */
#define _GNU_SOURCE
#include "chance.h"
#include "count.h"
#include "groups.h"
#include "sample.h"
#include "tally.h"
#include "text.h"
#include "try.h"

#include <inttypes.h>
#include <stdio.h>
#include <string.h>

/* Every vector but the last is small. */
enum { SMALL = VECTORS - 1, MOST_PIECES = 64 };

static struct text text;

/* Takes up the text as it is. */
static uint64_t taken_up(const struct sample *s)
{
    uint64_t place[FOX_PLACE_WORDS];
    struct file_call c = call_with(&text, s, place);
    return try_call(FILE_TAKE_UP, &c).answer;
}

/* The text as it is, and with the tag made anew, so that the tag no longer shows what was changed. */
static void both_tags(const struct sample *s)
{
    taken_up(s);
    text_close(&text, s);
    taken_up(s);
}

/* The scan whose first line is at the call's place in the whole file, asked for in what is left of that. */
static void read_of_cut(const struct sample *s)
{
    uint64_t place[FOX_PLACE_WORDS];
    struct file_call c = call_on(s, place);
    for (size_t i = 0; i < s->scans; i++) {
        struct file_call cut = call_with(&text, s, (uint64_t[FOX_PLACE_WORDS]){0});
        cut.place = place, cut.out_len = (size_t)s->lengths[i];
        try_call(FILE_NEXT, &cut);
        try_call(FILE_READ, &cut);
        try_call(FILE_SKIP, &cut);
        struct outcome next = second_outcome(FILE_SKIP, &c);
        memcpy(place, next.place, sizeof next.place);
    }
}

void cut_files(void)
{
    group_begin("files cut at every byte: 11 within the header, 12 after it; scans of them asked for");
    for (size_t i = 0; i < VECTORS; i++)
        for (size_t len = 0; len < vectors[i].file_len; len++) {
            const struct sample *s = &vectors[i];
            text_set(&text, s->file, len);
            uint64_t answer = taken_up(s), right = len < header_len(s) ? FOX_REFUSED_HEADER : FOX_REFUSED_FILE;
            if (case_wrong(answer == right))
                printf("file %zu cut at byte %zu is refused with %" PRIu64 "\n", i, len, answer);
            if (i == 3 || i == 6)
                read_of_cut(s);
        }
    group_end();
}

void changed_bytes(void)
{
    static const uint8_t others[] = {0, '\n', '\r', '0', '9', 'F', 'a', '='};
    group_begin("every byte of a file changed to some others, with the old tag and with a new one");
    for (size_t i = 0; i < SMALL; i++)
        for (size_t at = 0; at < vectors[i].file_len; at++)
            for (size_t j = 0; j < COUNT(others) + 2; j++) {
                const struct sample *s = &vectors[i];
                uint8_t was = s->file[at], bit = (uint8_t)(1 << below(8));
                text_set(&text, s->file, s->file_len);
                text.bytes[at] = j < COUNT(others) ? others[j] : j == COUNT(others) ? was + 1 : was ^ bit;
                both_tags(s);
            }
    group_end();
}

/* A file as its lines and the bytes of its scans, each of these with the line feed after it. */
struct pieces {
    struct {
        const uint8_t *at;
        size_t len;
    } piece[MOST_PIECES];
    size_t count;
};

static void add_piece(struct pieces *p, const uint8_t **at, size_t len)
{
    p->piece[p->count].at = *at, p->piece[p->count].len = len;
    p->count++;
    *at += len;
}

static void add_lines(struct pieces *p, const uint8_t **at, int lines)
{
    for (int i = 0; i < lines; i++)
        add_piece(p, at, (size_t)((const uint8_t *)rawmemchr(*at, '\n') - *at) + 1);
}

static struct pieces pieces_of(const struct sample *s)
{
    struct pieces p = {.count = 0};
    const uint8_t *at = s->file;
    add_lines(&p, &at, 4);
    for (size_t i = 0; i < s->scans; i++) {
        add_lines(&p, &at, 2);
        add_piece(&p, &at, (size_t)s->lengths[i] + 1);
    }
    add_lines(&p, &at, 2);
    return p;
}

/* The pieces in another order, some of them left out or twice there, as the list says. */
static void try_pieces(const struct sample *s, const struct pieces *p, const size_t *list, size_t count)
{
    text.len = 0;
    for (size_t i = 0; i < count; i++)
        text_add(&text, p->piece[list[i]].at, p->piece[list[i]].len);
    both_tags(s);
}

/* The pieces before one are as they were, and so are those after it. */
static void times(const struct sample *s, const struct pieces *p, size_t which, size_t often)
{
    size_t list[MOST_PIECES + 1], count = 0;
    for (size_t i = 0; i < p->count; i++)
        for (size_t j = 0; j < (i == which ? often : 1); j++)
            list[count++] = i;
    try_pieces(s, p, list, count);
}

static void exchanged(const struct sample *s, const struct pieces *p, size_t a, size_t b)
{
    size_t list[MOST_PIECES];
    for (size_t i = 0; i < p->count; i++)
        list[i] = i == a ? b : i == b ? a : i;
    try_pieces(s, p, list, p->count);
}

void changed_lines(void)
{
    group_begin("lines and scans left out, doubled and exchanged, with the old tag and with a new one");
    for (size_t i = 0; i < SMALL; i++) {
        const struct sample *s = &vectors[i];
        struct pieces p = pieces_of(s);
        for (size_t a = 0; a < p.count; a++) {
            times(s, &p, a, 0);
            times(s, &p, a, 2);
            for (size_t b = 0; b < a; b++)
                exchanged(s, &p, a, b);
        }
    }
    group_end();
}

/* What is replaced, by what, and what is answered where the tag is made anew. The file has 4 scans of 8, 0, 1 and 13
 * bytes. */
static const struct edit {
    const char *from, *to;
    uint32_t number;
} edits[] = {
    {"format=run", "format=run", FOX_SERVED},
    {"format=run", "format=runs", FOX_REFUSED_HEADER},
    {"format=run", "FORMAT=run", FOX_REFUSED_HEADER},
    {"format=run\n", "format=run\r\n", FOX_REFUSED_HEADER},
    {"format=run\n", "\xEF\xBB\xBF" "format=run\n", FOX_REFUSED_HEADER},
    {"cipher=64", "cipher=064", FOX_REFUSED_HEADER},
    {"cipher=64", "cipher=128", FOX_REFUSED_HEADER},
    {"cipher=64", "cipher=", FOX_REFUSED_HEADER},
    {"cipher=64\n", "cipher=64\r\n", FOX_REFUSED_HEADER},
    {"cipher=64\n", "cipher=64\n\n", FOX_REFUSED_HEADER},
    {"rounds=16", "rounds=016", FOX_REFUSED_HEADER},
    {"rounds=16", "rounds=17", FOX_REFUSED_HEADER},
    {"rounds=16", "rounds=1", FOX_REFUSED_HEADER},
    {"rounds=16", "rounds=160", FOX_REFUSED_HEADER},
    {"rounds=16\n", "rounds=16\r\n", FOX_REFUSED_HEADER},
    {"counter=0E", "counter=1E", FOX_SERVED},
    {"counter=0E", "counter=0e", FOX_REFUSED_HEADER},
    {"counter=0E", "counter=", FOX_REFUSED_HEADER},
    {"counter=0E", "counter=0", FOX_REFUSED_HEADER},
    {"counter=0E", "counter=000E", FOX_REFUSED_HEADER},
    {"counter=0E", "counter= E", FOX_REFUSED_HEADER},
    {"0EA8\n", "0EA8 \n", FOX_REFUSED_HEADER},
    {"0EA8\n", "0EA8\r\n", FOX_REFUSED_HEADER},
    {"0EA8\n", "0EA8\n\n", FOX_REFUSED_FILE},
    {"scan=1", "scan=01", FOX_REFUSED_FILE},
    {"scan=1", "scan=0", FOX_REFUSED_FILE},
    {"scan=1", "scan=2", FOX_REFUSED_FILE},
    {"scan=1", "scan=", FOX_REFUSED_FILE},
    {"scan=1", "scan=11", FOX_REFUSED_FILE},
    {"scan=1\n", "scan=1\r\n", FOX_REFUSED_FILE},
    {"scan=2", "scan=1", FOX_REFUSED_FILE},
    {"scan=2", "scan=3", FOX_REFUSED_FILE},
    {"scan=4", "scan=5", FOX_REFUSED_FILE},
    {"scan=4", "scan=65540", FOX_REFUSED_FILE},
    {"scan=4", "scan=4294967300", FOX_REFUSED_FILE},
    {"bytes=8", "bytes=08", FOX_REFUSED_FILE},
    {"bytes=8", "bytes=7", FOX_REFUSED_FILE},
    {"bytes=8", "bytes=9", FOX_REFUSED_FILE},
    {"bytes=8", "bytes=", FOX_REFUSED_FILE},
    {"bytes=8", "bytes=-8", FOX_REFUSED_FILE},
    {"bytes=8", "bytes=8\r", FOX_REFUSED_FILE},
    {"bytes=8", "bytes=8 ", FOX_REFUSED_FILE},
    {"bytes=8", "bytes=65536", FOX_REFUSED_FILE},
    {"bytes=8", "bytes=65544", FOX_REFUSED_FILE},
    {"bytes=8", "bytes=4294967304", FOX_REFUSED_FILE},
    {"bytes=8", "bytes=18446744073709551624", FOX_REFUSED_FILE},
    {"bytes=0", "bytes=00", FOX_REFUSED_FILE},
    {"bytes=0", "bytes=", FOX_REFUSED_FILE},
    {"bytes=0\n\n", "bytes=0\n", FOX_REFUSED_FILE},
    {"bytes=0\n\n", "bytes=0\n\r\n", FOX_REFUSED_FILE},
    {"bytes=0\n\n", "bytes=1\n\n", FOX_REFUSED_FILE},
    {"bytes=0\n\n", "bytes=1\nX\n", FOX_SERVED},
    {"bytes=0\n\n", "bytes=1\n\n\n", FOX_SERVED},
    {"bytes=1\n", "bytes=01\n", FOX_REFUSED_FILE},
    {"scans=4", "scans=3", FOX_REFUSED_FILE},
    {"scans=4", "scans=5", FOX_REFUSED_FILE},
    {"scans=4", "scans=0", FOX_REFUSED_FILE},
    {"scans=4", "scans=04", FOX_REFUSED_FILE},
    {"scans=4", "scans=65540", FOX_REFUSED_FILE},
    {"scans=4", "scans=", FOX_REFUSED_FILE},
    {"scans=4\n", "scans=4\r\n", FOX_REFUSED_FILE},
    {"scans=4\n", "scan=5\nbytes=0\n\nscans=4\n", FOX_REFUSED_FILE},
    {"scans=4\n", "scan=5\nbytes=0\n\nscans=5\n", FOX_SERVED},
    {"scans=4\n", "scan=4\nbytes=0\n\nscans=5\n", FOX_REFUSED_FILE},
    {"close=", "Close=", FOX_REFUSED_FILE},
    {"close=", "close=\n", FOX_REFUSED_FILE},
};

/* What is done after the tag was made anew. */
static const struct edit closing_edits[] = {
    {"close=", "close=", FOX_SERVED},
    {"close=", "close=00", FOX_REFUSED_FILE},
    {"close=", "close= ", FOX_REFUSED_FILE},
    {"close=7D", "close=7d", FOX_REFUSED_FILE},
    {"close=7D", "close=7", FOX_REFUSED_FILE},
    {"close=7D", "close=", FOX_REFUSED_FILE},
    {"close=7D", "close=7E", FOX_REFUSED_TAG},
    {"close=7D", "close=6D", FOX_REFUSED_TAG},
    {"D01A\n", "D01B\n", FOX_REFUSED_TAG},
    {"D01A\n", "D01A", FOX_REFUSED_FILE},
    {"D01A\n", "D01A\r\n", FOX_REFUSED_FILE},
    {"D01A\n", "D01A\n\n", FOX_REFUSED_FILE},
    {"D01A\n", "D01A\n ", FOX_REFUSED_FILE},
    {"D01A\n", "D01A00\n", FOX_REFUSED_FILE},
    {"D01A\n", "D01A\nscan=5\nbytes=0\n\n", FOX_REFUSED_FILE},
};

static void try_edit(const struct edit *edit, int anew)
{
    const struct sample *s = &vectors[3];
    text_set(&text, s->file, s->file_len);
    int found = text_replace(&text, edit->from, edit->to);
    if (anew)
        text_close(&text, s);
    uint64_t answer = taken_up(s);
    if (case_wrong(found && answer == edit->number))
        printf("'%s' in the place of '%s' is answered with %" PRIu64 "\n", edit->to, edit->from, answer);
}

void edited_files(void)
{
    group_begin("leading zeros, wrong numbers, small hex digits, returns, text after the end");
    for (size_t i = 0; i < COUNT(edits); i++)
        try_edit(&edits[i], 1);
    for (size_t i = 0; i < COUNT(closing_edits); i++)
        try_edit(&closing_edits[i], 0);
    group_end();
}

/* Some bytes become others, be it none or more than there were. */
static void damage(void)
{
    uint8_t bytes[8];
    size_t at = below(text.len + 1), most = text.len - at < sizeof bytes ? text.len - at : sizeof bytes;
    size_t len = below(most + 1), new_len = below(3) == 0 ? len : below(sizeof bytes);
    fill(bytes, sizeof bytes);
    for (size_t i = 0; i < sizeof bytes; i++)
        if (below(4) != 0)
            bytes[i] = (uint8_t)"0123456789ABCDEFabcdef=\n\rscanbytesclose"[below(39)];
    text_change(&text, at, len, bytes, new_len);
}

/* A text that is served is read to its end too. */
static void read_on(const struct sample *s)
{
    uint64_t place[FOX_PLACE_WORDS];
    struct file_call c = call_with(&text, s, place);
    for (uint64_t len; (len = second_outcome(FILE_NEXT, &c).answer) != FOX_NO_SCAN;) {
        c.out_len = (size_t)len;
        struct outcome o = try_call(FILE_READ, &c);
        memcpy(place, o.place, sizeof o.place);
    }
    try_call(FILE_READ, &c);
}

void damaged_files(void)
{
    enum { FILES = 12000 };
    unsigned long served = 0;
    group_begin("files damaged by chance, with the old tag and with a new one");
    for (int i = 0; i < FILES; i++) {
        const struct sample *s = below(4) == 0 ? &old_files[below(OLD_FILES)] : &vectors[below(SMALL)];
        text_set(&text, s->file, s->file_len);
        for (size_t often = 1 + below(2); often > 0; often--)
            damage();
        if (i % 2 == 0)
            text_close(&text, s);
        if (taken_up(s) != FOX_SERVED)
            continue;
        served++;
        read_on(s);
    }
    if (case_wrong(served > 0))
        printf("none of them was right\n");
    group_end();
}
