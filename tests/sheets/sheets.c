/* The bench program beside the second implementation: sheets right and broken, and every byte that it prints for them.
 * Usage: sheets SEED PROGRAM [WORDS..], where SEED is - for one from the clock. Last line: 'N passed, M failed', where
 * each group of sheets counts as one. */
#include "chance.h"
#include "count.h"
#include "program.h"
#include "tally.h"
#include "written.h"

#include <inttypes.h>
#include <stdio.h>
#include <string.h>

enum { LINES = 5, MEGABYTE = 1 << 20 };

/* 01's own sheet. */
static const char *const begins[LINES] = {"cipher=", "rounds=", "key=", "way=", "block="};
static const char *const values[LINES] = {"64", "16", "00112233445566778899AABBCCDDEEFF", "seal", "0123456789ABCDEF"};

static void put_own_lines(size_t from, size_t to)
{
    for (size_t i = from; i < to && i < LINES; i++) {
        put(begins[i]);
        put(values[i]);
        put("\n");
    }
}

/* 01's own sheet with one line, its line feed with it, replaced; or with something after it, where `line` is LINES. */
static void try_line(size_t line, const char *begin, const char *value, const char *end)
{
    put_own_lines(0, line);
    put(begin);
    put(value);
    put(end);
    put_own_lines(line + 1, LINES);
    try_sheet();
}

static void put_sheet(uint32_t cipher, uint32_t rounds, size_t key_pairs, const char *way, size_t block_pairs)
{
    put("cipher=");
    put_number(cipher);
    put("\nrounds=");
    put_number(rounds);
    put("\nkey=");
    put_pairs(key_pairs);
    put("\nway=");
    put(way);
    put("\nblock=");
    put_pairs(block_pairs);
    put("\n");
}

static const char *const both_ways[] = {"seal", "open"};

static const char *some_way(void)
{
    return ONE_OF(both_ways);
}

/* One key in four is too short to seal with. */
static size_t some_key(void)
{
    return below(4) == 0 ? below(16) : 16 + below(17);
}

static void put_some_sheet(void)
{
    uint32_t cipher = below(2) == 0 ? 64 : 128;
    put_sheet(cipher, 12 + (uint32_t)below(8), some_key(), some_way(), cipher / 8);
}

static void keys(void)
{
    group_begin("right sheets: keys of 0 to 64 bytes, sealing and opening");
    for (size_t key = 0; key <= 64; key += key < 36 ? 1 : 7)
        for (uint32_t i = 0; i < 4; i++) {
            uint32_t cipher = i < 2 ? 64 : 128;
            put_sheet(cipher, 12 + (uint32_t)key, key, both_ways[i % 2], cipher / 8);
            try_sheet();
        }
    group_end();
}

static void right_numbers(void)
{
    static const uint32_t rounds[] = {0, 1, 10, 11, 12, 13, 254, 255, 256, 257, 268, 1000, 65535};
    static const uint32_t ciphers[] = {0, 1, 8, 16, 63, 65, 127, 129, 192, 256, 320, 6400, 32832, 65535};
    group_begin("right sheets: ciphers and rounds");
    for (size_t i = 0; i < COUNT(rounds); i++)
        for (uint32_t cipher = 64; cipher <= 128; cipher += 64) {
            put_sheet(cipher, rounds[i], some_key(), some_way(), cipher / 8);
            try_sheet();
        }
    for (size_t i = 0; i < COUNT(ciphers); i++) {
        put_sheet(ciphers[i], 16, 16, some_way(), 8);
        try_sheet();
    }
    group_end();
}

/* Of several refusals the first is printed. */
static void blocks(void)
{
    static const size_t lengths[] = {0, 1, 7, 8, 9, 15, 16, 17, 24, 31, 32}, keys_of[] = {33, 15, 0, 16};
    group_begin("right sheets: blocks of 0 to 32 bytes, several refusals at once");
    for (size_t i = 0; i < COUNT(lengths); i++)
        for (uint32_t cipher = 64; cipher <= 128; cipher += 64) {
            put_sheet(cipher, 16, 16, some_way(), lengths[i]);
            try_sheet();
        }
    for (size_t i = 0; i < 64; i++) {
        put_sheet(i & 1 ? 64 : 65, i & 2 ? 12 : 11, keys_of[i / 16], both_ways[i / 8 % 2], i & 4 ? 8 : 9);
        try_sheet();
    }
    group_end();
}

static void cut_sheets(void)
{
    size_t whole = 1;
    group_begin("01's sheet cut at every byte");
    for (size_t cut = 0; cut <= whole; cut++) {
        put_own_lines(0, LINES);
        whole = put_so_far();
        cut_to(cut);
        try_sheet();
    }
    group_end();
}

static void numbers(void)
{
    static const char *const texts[] = {
        "",    "0",     "00",    "064",   "0064",  "00000",  "00016",      "0x40",
        "40h", "65535", "65536", "65600", "99999", "100000", "4294967360", "18446744073709551680",
        "+64", "-64",   "-0",    " 64",   "64 ",   "6 4",    "64,0",       "64.0",
        "6_4", "1e2",   "sixty", "64\t",  "64=",   "/4",     ":4",
    };
    group_begin("decimal numbers");
    for (size_t line = 0; line < 2; line++)
        for (size_t i = 0; i < COUNT(texts); i++)
            try_line(line, begins[line], texts[i], "\n");
    group_end();
}

static void pairs(void)
{
    static const char *const texts[] = {
        "0",  "000", "aa",  "Aa",  "aA",    "0G",   "G0",    "@0", "/0",   ":0",
        "`0", " ",   "00 ", " 00", "00 11", "0x00", "00,11", "0-", "00\t", "00=",
    };
    static const size_t lengths[] = {31, 32, 33, 63, 64, 65, 66, 127, 128, 129, 130, 256, 320};
    group_begin("hex pairs");
    for (size_t line = 2; line < LINES; line += 2) {
        for (size_t i = 0; i < COUNT(texts); i++)
            try_line(line, begins[line], texts[i], "\n");
        for (size_t i = 0; i < COUNT(lengths); i++) {
            char digits[512] = "";
            memset(digits, 'A', lengths[i]);
            try_line(line, begins[line], digits, "\n");
        }
    }
    group_end();
}

static void ways(void)
{
    static const char *const texts[] = {
        "",     "s",    "sea",   "seals", "Seal",     "SEAL",      "seaL", "seal ", " seal",
        "seel", "sea1", "=seal", "seal=", "sealopen", "seal,open", "o",    "ope",   "opens",
        "Open", "OPEN", "open ", " open", "oqen",     "close",     "0",    "1",
    };
    group_begin("ways");
    for (size_t i = 0; i < COUNT(texts); i++)
        try_line(3, begins[3], texts[i], "\n");
    group_end();
}

/* A shape with the line's name in place of N, and its name in capitals in place of C. */
static void fill_shape(char *begin, const char *shape, size_t line)
{
    for (; *shape != '\0'; shape++)
        if (*shape != 'N' && *shape != 'C')
            *begin++ = *shape;
        else
            for (const char *c = begins[line]; *c != '='; c++)
                *begin++ = (char)(*shape == 'C' ? *c - 'a' + 'A' : *c);
    *begin = '\0';
}

static void names(void)
{
    static const char *const shapes[] = {
        " N=", "\tN=", "=N=", "xN=", "\xEF\xBB\xBFN=", "N",       "N =", "N= ", "N = ", "N==", "N:", "Ns=", "N\t=",
        "C=",  "=",    "",    "NN=", "way=",           "cipher=",
    };
    group_begin("names, and what stands around '='");
    for (size_t line = 0; line < LINES; line++)
        for (size_t i = 0; i < COUNT(shapes); i++) {
            char begin[32];
            fill_shape(begin, shapes[i], line);
            try_line(line, begin, values[line], "\n");
        }
    group_end();
}

static void ends(void)
{
    static const char *const texts[] = {"\r\n", "\r", " \n", "\t\n", "\n\r", "\n \n", "", "\f\n", "\v", ";\n"};
    group_begin("line ends");
    for (size_t line = 0; line < LINES; line++)
        for (size_t i = 0; i < COUNT(texts); i++)
            try_line(line, begins[line], values[line], texts[i]);
    for (size_t line = 0; line < LINES; line++) {
        put(begins[line]);
        put(values[line]);
        put("\r\n");
    }
    try_sheet();
    group_end();
}

/* A digit is the line of 01's sheet with that number, and a dot an empty line. */
static void order(void)
{
    static const char *const orders[] = {
        "2345",   "1345",   "1245",   "1235",   "1234",   "112345", "122345", "123345", "123445",
        "123455", ".12345", "1.2345", "12.345", "123.45", "1234.5", "12345.", ".2345",  "1.345",
        "12.45",  "123.5",  "1234.",  "21345",  "32145",  "42315",  "52341",  "13245",  "14325",
        "15342",  "12435",  "12543",  "12354",  "54321",  "1",      "5",      "11111",  ".....",
    };
    group_begin("lines left out, doubled, exchanged, empty");
    for (size_t i = 0; i < COUNT(orders); i++) {
        for (const char *c = orders[i]; *c != '\0'; c++)
            if (*c == '.')
                put("\n");
            else
                put_own_lines((size_t)(*c - '1'), (size_t)(*c - '0'));
        try_sheet();
    }
    group_end();
}

/* Bytes that a C string, or a signed byte, would take wrong, put over a byte of each line and put in before one. */
static void strange_bytes(void)
{
    static const uint8_t bytes[] = {0x00, 0x80, 0xFF, 0xB0};
    group_begin("NUL and bytes above 127");
    for (size_t line = 0; line < LINES; line++)
        for (size_t i = 0; i < 2 * COUNT(bytes); i++) {
            put_own_lines(0, line);
            size_t start = put_so_far();
            put_own_lines(line, line + 1);
            size_t place = start + below(put_so_far() - start);
            put_own_lines(line + 1, LINES);
            if (i < COUNT(bytes))
                put_over(place, bytes[i]);
            else
                put_in(place, bytes[i - COUNT(bytes)]);
            try_sheet();
        }
    group_end();
}

static void text_after(void)
{
    static const char *const texts[] = {"x",      "\n",     " ",    "\r",  "\r\n", "\t", "0", "check=000000\n",
                                        "block=", "\n\n\n", "\x1A", "\x04"};
    static const char many[] = {'x', '\n', '\0'};
    group_begin("text after the fifth line");
    for (size_t i = 0; i < COUNT(texts); i++)
        try_line(LINES, texts[i], "", "");
    for (size_t i = 0; i < 2 * COUNT(many); i++) {
        put_own_lines(0, LINES);
        put_many((uint8_t)many[i / 2], i % 2 == 0 ? 1 : MEGABYTE);
        try_sheet();
    }
    put_own_lines(0, LINES);
    put_own_lines(0, LINES);
    try_sheet();
    group_end();
}

/* Each line with a value of 2 MB, and then nothing but one byte again and again. */
static void long_lines(void)
{
    static const char many[] = {'1', '0', 'A', '=', ' ', '\0', '\n'};
    group_begin("lines of 2 MB");
    for (size_t i = 0; i < 2 * LINES; i++) {
        size_t line = i / 2;
        put_own_lines(0, line);
        put(begins[line]);
        put_many(line < 2 ? '1' : 'A', 2 * MEGABYTE);
        if (i % 2 == 0) {
            put("\n");
            put_own_lines(line + 1, LINES);
        }
        try_sheet();
    }
    for (size_t i = 0; i < COUNT(many); i++) {
        put_many((uint8_t)many[i], 2 * MEGABYTE);
        try_sheet();
    }
    group_end();
}

/* By itself, and after all five lines. */
static void noise(void)
{
    group_begin("5 MB of noise");
    for (size_t right = 0; right <= LINES; right += LINES) {
        put_own_lines(0, right);
        put_noise(5 * MEGABYTE);
        try_sheet();
    }
    group_end();
}

/* One byte replaced, left out or put in; most often it is one that sheets are made of. */
static void change_one_byte(void)
{
    static const char usual[] = "0123456789ABCDEFabcdef=\n\r cipherroundskeywaysealopenblock";
    uint8_t byte = (uint8_t)(below(4) == 0 ? any_number() : (uint64_t)usual[below(sizeof usual - 1)]);
    size_t place = below(put_so_far());
    switch (below(4)) {
    case 0:
        leave_out(place);
        break;
    case 1:
        put_in(place, byte);
        break;
    default:
        put_over(place, byte);
    }
}

static void changed_sheets(void)
{
    group_begin("right sheets with one byte changed, or two");
    for (int i = 0; i < 100; i++) {
        put_some_sheet();
        change_one_byte();
        if (i % 4 == 0)
            change_one_byte();
        try_sheet();
    }
    group_end();
}

/* A program that takes the first piece for the whole sheet answers wrong. Pieces of one byte come quicker, since there
 * are so many. */
static void slow_sheets(void)
{
    static const size_t pieces[] = {1, 10, 29, 60, 75};
    group_begin("sheets that arrive in pieces");
    for (size_t i = 0; i < COUNT(pieces); i++) {
        put_some_sheet();
        try_fed((struct feeding){pieces[i], pieces[i] == 1 ? 4 : 80});
    }
    for (int after = 0; after < 2; after++) {
        put_own_lines(0, LINES);
        put(after ? "x" : "");
        try_fed((struct feeding){put_so_far() - 1, 200});
    }
    group_end();
}

int main(int count, char **words)
{
    static void (*const groups[])(void) = {
        keys, right_numbers, blocks,        cut_sheets, numbers,    pairs, ways,           names,
        ends, order,         strange_bytes, text_after, long_lines, noise, changed_sheets, slow_sheets,
    };
    if (count < 3) {
        fprintf(stderr, "usage: sheets SEED PROGRAM [WORDS..]\n");
        return 2;
    }
    tally_begin("sheets");
    program_prepare();
    bench_is(words + 2);
    uint64_t seed = chance_begin(strcmp(words[1], "-") == 0 ? NULL : words[1]);
    for (size_t i = 0; i < COUNT(groups); i++)
        groups[i]();
    printf("sheets: %ld sheets, seed %" PRIu64 "\n", tally_cases(), seed);
    return tally_end();
}
