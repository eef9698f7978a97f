/* The second implementation by itself: 001's vectors, 01's known values and sheet, stopped blocks, sessions, tags,
 * run files, and the rows of three files. Usage: vectors BLOCKS RUNS TAGS FILES. Last line: 'N passed, M failed', where
 * each group of cases counts as one. */
#include "check.h"
#include "count.h"
#include "hex.h"
#include "parts.h"
#include "second.h"
#include "sheet.h"
#include "tally.h"

#include <stdio.h>
#include <stdlib.h>
#include <string.h>

enum { RUN_END = 1073741824 };

/* A sealed block in hex is opened, and what comes of it sealed, but for a key that is too short for it: that is refused,
 * and the output stays as it was, which is the opened block. */
static void both_ways_round(uint32_t cipher, uint32_t rounds, const char *key_text, const char *plain_text,
                            const char *sealed_text)
{
    uint8_t key[MOST_KEY], plain[MOST_BLOCK], sealed[MOST_BLOCK], out[MOST_BLOCK] = {0};
    size_t key_len = hex_read(key_text, key, sizeof key), block = hex_read(plain_text, plain, sizeof plain);
    uint32_t refusal = seal_answer(key_len);
    same_number((uint32_t)hex_read(sealed_text, sealed, sizeof sealed), (uint32_t)block, "length of the sealed block");
    same_number(second_block(1, cipher, rounds, key, key_len, sealed, block, out, block), 0, plain_text);
    same_bytes(out, plain, block, plain_text);
    same_number(second_block(0, cipher, rounds, key, key_len, plain, block, out, block), refusal, sealed_text);
    same_bytes(out, refusal == 0 ? sealed : plain, block, sealed_text);
}

static void paper_vectors(void)
{
    static const char key[] = "00112233445566778899AABBCCDDEEFFFFEEDDCCBBAA99887766554433221100";
    static const char block[] = "0123456789ABCDEFFEDCBA9876543210";
    static const struct {
        uint32_t cipher;
        size_t key_len;
        const char *sealed;
    } vectors[] = {
        {64, 8, "200E1F5847D8A2CE"},
        {64, 16, "B85D6B766DCE952E"},
        {64, 24, "2741D7963406DACA"},
        {64, 32, "8A4EDFBC36BEF7F6"},
        {128, 8, "1EECBC7DEB66E7DAE1A7876D90C0B239"},
        {128, 16, "849E0F0682F50CD588AE073006A10BEE"},
        {128, 24, "5934214ECBA2D5FD58C261B28261B1BC"},
        {128, 32, "45CCB1030F67B768247F530266BC4996"},
    };
    group_begin("the eight vectors of 001, opened, and sealed but for the keys of 64 bits");
    for (size_t i = 0; i < COUNT(vectors); i++) {
        char key_part[sizeof key] = "", block_part[sizeof block] = "";
        memcpy(key_part, key, vectors[i].key_len * 2);
        memcpy(block_part, block, vectors[i].cipher / 4);
        both_ways_round(vectors[i].cipher, 16, key_part, block_part, vectors[i].sealed);
    }
    group_end();
}

/* 001 reads entry 4C out, and its figure is damaged at 9D, C6 and CC. The box has each value once, or it could not be
 * undone. */
static void box(void)
{
    static const uint8_t known[][2] = {{0x4C, 0x15}, {0x9D, 0x8A}, {0xC6, 0x08},
                                       {0xCC, 0xA8}, {0x00, 0x5D}, {0xFF, 0x61}};
    uint8_t values[256], seen[256] = {0};
    size_t times = 0;
    group_begin("the box");
    for (size_t i = 0; i < 256; i++)
        values[i] = (uint8_t)i;
    second_substitute(values, sizeof values);
    for (size_t i = 0; i < COUNT(known); i++)
        same_number(values[known[i][0]], known[i][1], "an entry of the box");
    for (size_t i = 0; i < 256; i++)
        times += seen[values[i]]++ == 0;
    same_number((uint32_t)times, 256, "values that the box takes");
    group_end();
}

static void known_layers(void)
{
    uint8_t word[4] = {0x00, 0x01, 0x00, 0x02}, four[4] = {1}, eight[8] = {1}, last[8] = {[7] = 1};
    uint8_t words[16] = {[3] = 1, [7] = 2, [11] = 4, [15] = 8};
    group_begin("known values of 01: field, or and io, diffusion, mix64");
    same_number(second_times(0x38, 0x0B), 0x71, "38 times 0B");
    same_number(second_times(0x02, 0xFC), 0x01, "02 times FC");
    second_or(word);
    same_bytes(word, (const uint8_t[]){0x00, 0x02, 0x00, 0x03}, 4, "or");
    second_io(word);
    same_bytes(word, (const uint8_t[]){0x00, 0x01, 0x00, 0x02}, 4, "io");
    second_diffuse(four, 4);
    same_bytes(four, (const uint8_t[]){0x01, 0x01, 0xFD, 0x02}, 4, "mu4");
    second_diffuse(eight, 8);
    same_bytes(eight, (const uint8_t[]){0x01, 0x01, 0x03, 0x82, 0x02, 0x04, 0xFC, 0x7E}, 8, "mu8");
    second_diffuse(last, 8);
    same_bytes(last, (const uint8_t[]){0x03, 0x01, 0x01, 0x01, 0x01, 0x01, 0x01, 0x01}, 8, "the last column of mu8");
    second_mix_quarters(words, 16);
    same_bytes(words, (const uint8_t[]){0, 0, 0, 0xE, 0, 0, 0, 0xD, 0, 0, 0, 0xB, 0, 0, 0, 0x7}, 16, "mix64");
    group_end();
}

static void known_schedule(void)
{
    static const uint8_t registers[4][3] = {
        {0x6A, 0x10, 0xEF}, {0xD4, 0x21, 0xDE}, {0xA8, 0x43, 0xA7}, {0x50, 0x87, 0x55}};
    static const uint8_t short_key[8] = {0x00, 0x11, 0x22, 0x33, 0x44, 0x55, 0x66, 0x77};
    uint8_t reg[3], mixed[MOST_KEY];
    second_seed(reg, 16);
    group_begin("known values of 01: register, mixed key, ek");
    for (size_t i = 0; i < COUNT(registers); i++) {
        same_bytes(reg, registers[i], 3, "register");
        second_step(reg);
    }
    second_mixed_key(mixed, 16, short_key, 0);
    same_bytes(mixed, (const uint8_t[]){0x57, 0x2C, 0xD2}, 3, "mixed empty key");
    second_mixed_key(mixed, 16, short_key, sizeof short_key);
    same_bytes(mixed, (const uint8_t[]){0xE0, 0x47, 0x05}, 3, "mixed key of 8 bytes");
    same_number((uint32_t)second_ek(8, 16), 16, "ek of FOX64 with 16 bytes");
    same_number((uint32_t)second_ek(8, 17), 32, "ek of FOX64 with 17 bytes");
    same_number((uint32_t)second_ek(16, 16), 32, "ek of FOX128 with 16 bytes");
    group_end();
}

static void limits_of_rounds(uint32_t cipher)
{
    static const uint8_t zeros[16] = {0};
    uint8_t out[16];
    size_t b = cipher / 8;
    same_number(second_block(0, cipher, 11, zeros, 16, zeros, b, out, b), 2, "11 rounds");
    same_number(second_block(0, cipher, 12, zeros, 16, zeros, b, out, b), 0, "12 rounds");
    same_number(second_block(0, cipher, 255, zeros, 16, zeros, b, out, b), 0, "255 rounds");
    same_number(second_block(0, cipher, 256, zeros, 16, zeros, b, out, b), 2, "256 rounds");
}

/* What each length of a key answers in sealing and in opening, of a block and of a run. */
static void limits_of_keys(uint32_t cipher)
{
    static const struct {
        size_t key_len;
        uint32_t answers[2];
    } limits[] = {{0, {13, 0}}, {15, {13, 0}}, {16, {0, 0}}, {32, {0, 0}}, {33, {3, 3}}};
    static const uint8_t zeros[40] = {0};
    uint8_t out[16];
    size_t b = cipher / 8;
    for (size_t i = 0; i < 2 * COUNT(limits); i++) {
        int opening = i % 2 == 1;
        size_t key_len = limits[i / 2].key_len;
        uint32_t answer = limits[i / 2].answers[opening];
        same_number(second_block(opening, cipher, 16, zeros, key_len, zeros, b, out, b), answer, "key of a block");
        same_number(second_run(opening, cipher, 16, zeros, key_len, zeros, b, 0, zeros, 5, out, 5), answer,
                    "key of a run");
    }
}

static void limits_of_runs(int opening, uint32_t cipher)
{
    static const uint8_t zeros[16] = {0};
    uint8_t out[16];
    size_t b = cipher / 8, key_len = opening ? 9 : 16;
    same_number(second_run(opening, cipher, 16, zeros, key_len, zeros, b, RUN_END, zeros, 0, out, 0), 0,
                "nothing at the run's end");
    same_number(second_run(opening, cipher, 16, zeros, key_len, zeros, b, RUN_END, zeros, 1, out, 1), 7,
                "one byte past the run's end");
    same_number(second_run(opening, cipher, 16, zeros, key_len, zeros, b, RUN_END + 1ull, zeros, 0, out, 0), 7,
                "nothing past the run's end");
    same_number(second_run(opening, cipher, 16, zeros, key_len, zeros, b, UINT64_MAX, zeros, 1, out, 1), 7,
                "a sum of 2 to the 64");
}

static void known_limits(void)
{
    group_begin("known limits of 01, and of keys that seal");
    for (uint32_t cipher = 64; cipher <= 128; cipher += 64) {
        limits_of_rounds(cipher);
        limits_of_keys(cipher);
        limits_of_runs(0, cipher);
        limits_of_runs(1, cipher);
    }
    group_end();
}

/* The key stream is the sealed counter blocks: one whose last `ones` bytes are ones, and then the one with zeros there
 * and one more before them. */
static void known_carry(size_t b, size_t ones)
{
    static const uint8_t zeros[32] = {0};
    uint32_t cipher = (uint32_t)b * 8;
    uint8_t counter[16], stream[32], sealed[32];
    memset(counter, 0xA5, b);
    memset(counter + b - ones, 0xFF, ones);
    same_number(second_run(0, cipher, 16, zeros, 16, counter, b, 0, zeros, 2 * b, stream, 2 * b), 0, "run");
    second_block(0, cipher, 16, zeros, 16, counter, b, sealed, b);
    memset(counter + b - ones, 0, ones);
    if (ones < b)
        counter[b - ones - 1] = 0xA6;
    second_block(0, cipher, 16, zeros, 16, counter, b, sealed + b, b);
    same_bytes(stream, sealed, 2 * b, "key stream");
}

static void known_counter(void)
{
    group_begin("a counter block plus one: carries out of every byte, and ones followed by zeros");
    for (size_t b = 8; b <= 16; b += 8)
        for (size_t ones = 0; ones <= b; ones++)
            known_carry(b, ones);
    group_end();
}

/* Where more than one refusal applies the first is given, and no refused call writes. */
static void order_of_refusals(void)
{
    static const uint8_t in[65537] = {0};
    uint8_t out[32], painted[32];
    group_begin("order of refusals, nothing written");
    memset(out, 0x5A, sizeof out);
    memcpy(painted, out, sizeof out);
    same_number(second_block(0, 65, 11, in, 33, in, 7, out, 9), 1, "1 before all");
    same_number(second_block(1, 64, 11, in, 33, in, 7, out, 9), 2, "2 before 3, 4 and 6");
    same_number(second_block(0, 128, 12, in, 33, in, 8, out, 9), 3, "3 before 4 and 6");
    same_number(second_block(1, 128, 12, in, 32, in, 8, out, 9), 4, "4 before 6");
    same_number(second_block(0, 128, 12, in, 32, in, 16, out, 8), 6, "6");
    same_number(second_block(0, 65, 11, in, 15, in, 7, out, 9), 1, "1 before 2, 13, 4 and 6");
    same_number(second_block(0, 64, 11, in, 15, in, 7, out, 9), 2, "2 before 13, 4 and 6");
    same_number(second_block(0, 64, 12, in, 15, in, 7, out, 9), 13, "13 before 4 and 6");
    same_number(second_block(1, 64, 12, in, 15, in, 7, out, 9), 4, "4 and no 13 in opening");
    same_number(second_run(1, 64, 12, in, 32, in, 9, UINT64_MAX, in, 65537, out, 9), 4, "4 before 5, 6 and 7");
    same_number(second_run(0, 64, 12, in, 32, in, 8, UINT64_MAX, in, 65537, out, 9), 5, "5 before 6 and 7");
    same_number(second_run(1, 64, 12, in, 32, in, 8, UINT64_MAX, in, 65536, out, 9), 6, "6 before 7");
    same_number(second_run(0, 64, 12, in, 32, in, 8, UINT64_MAX, in, 9, out, 9), 7, "7");
    same_number(second_run(0, 64, 11, in, 0, in, 9, UINT64_MAX, in, 65537, out, 9), 2, "2 before 13 and all after it");
    same_number(second_run(0, 64, 12, in, 0, in, 9, UINT64_MAX, in, 65537, out, 9), 13, "13 before 4, 5, 6 and 7");
    same_number(second_run(1, 64, 12, in, 0, in, 8, UINT64_MAX, in, 65537, out, 9), 5, "5 and no 13 in opening");
    same_bytes(out, painted, sizeof out, "output of refused calls");
    group_end();
}

static void one_sheet(const char *sheet, const char *expected)
{
    char answer[MOST_ANSWER];
    size_t len = second_sheet((const uint8_t *)sheet, strlen(sheet), answer, sizeof answer);
    if (case_wrong(len == strlen(expected) && memcmp(answer, expected, len) == 0))
        printf("found\n%.*sexpected\n%s", (int)len, answer, expected);
}

static void sheets(void)
{
    group_begin("bench sheets");
    one_sheet("cipher=64\nrounds=16\nkey=00112233445566778899AABBCCDDEEFF\nway=seal\nblock=0123456789ABCDEF\n",
              "refusal=0\ncipher=64\nrounds=16\nkeybits=128\nblock=B85D6B766DCE952E\n");
    one_sheet("cipher=64\nrounds=16\nkey=00112233445566778899AABBCCDDEEFF\nway=open\nblock=B85D6B766DCE952E\n",
              "refusal=0\ncipher=64\nrounds=16\nkeybits=128\nblock=0123456789ABCDEF\n");
    one_sheet("cipher=128\nrounds=16\nkey=0011223344556677\nway=open\nblock=1EECBC7DEB66E7DAE1A7876D90C0B239\n",
              "refusal=0\ncipher=128\nrounds=16\nkeybits=64\nblock=0123456789ABCDEFFEDCBA9876543210\n");
    one_sheet("cipher=128\nrounds=16\nkey=0011223344556677\nway=seal\nblock=0123456789ABCDEFFEDCBA9876543210\n",
              "refusal=13\n");
    one_sheet("cipher=64\nrounds=12\nkey=00112233445566778899AABBCCDDEE\nway=seal\nblock=\n", "refusal=13\n");
    one_sheet("cipher=0\nrounds=0\nkey=\nway=seal\nblock=\n", "refusal=1\n");
    one_sheet("cipher=64\nrounds=65535\nkey=\nway=seal\nblock=\n", "refusal=2\n");
    one_sheet("cipher=64\nrounds=16\nkey=\nway=open\nblock=\n", "refusal=4\n");
    one_sheet("", "refusal=8\nline=1\n");
    one_sheet("cipher=064\nrounds=16\nkey=\nway=open\nblock=\n", "refusal=8\nline=1\n");
    one_sheet("cipher=64\nrounds=65536\nkey=\nway=open\nblock=\n", "refusal=8\nline=2\n");
    one_sheet("cipher=64\nrounds=16\nkey=aa\nway=open\nblock=\n", "refusal=8\nline=3\n");
    one_sheet("cipher=64\nrounds=16\nkey=\nway=opens\nblock=\n", "refusal=8\nline=4\n");
    one_sheet("cipher=64\nrounds=16\nkey=\nway=open\nblock=", "refusal=8\nline=5\n");
    one_sheet("cipher=64\nrounds=16\nkey=\nway=open\nblock=\n\n", "refusal=8\nline=6\n");
    group_end();
}

static void block_row(char **fields)
{
    both_ways_round(number(fields[0]), number(fields[1]), fields[2], fields[3], fields[4]);
}

static void run_row(char **fields)
{
    uint8_t key[MOST_KEY], counter[MOST_BLOCK], data[MOST_ROW], sealed[MOST_ROW], out[MOST_ROW];
    uint32_t cipher = number(fields[0]), rounds = number(fields[1]);
    size_t key_len = hex_read(fields[2], key, sizeof key), block = hex_read(fields[3], counter, sizeof counter);
    size_t len = hex_read(fields[5], data, sizeof data);
    uint64_t offset = strtoull(fields[4], NULL, 10);
    uint32_t refusal = seal_answer(key_len);
    same_number((uint32_t)hex_read(fields[6], sealed, sizeof sealed), (uint32_t)len, "length of the sealed data");
    same_number(second_run(1, cipher, rounds, key, key_len, counter, block, offset, sealed, len, out, len), 0, fields[5]);
    same_bytes(out, data, len, "opened run");
    same_number(second_run(0, cipher, rounds, key, key_len, counter, block, offset, data, len, out, len), refusal,
                fields[6]);
    same_bytes(out, refusal == 0 ? sealed : data, len, "sealed run, or the opened one where sealing was refused");
}

int main(int count, char **words)
{
    if (count != 5) {
        fprintf(stderr, "usage: vectors BLOCKS RUNS TAGS FILES\n");
        return 2;
    }
    tally_begin("second");
    paper_vectors();
    box();
    known_layers();
    known_schedule();
    known_limits();
    known_counter();
    order_of_refusals();
    sheets();
    rows(words[1], 5, 252, block_row);
    rows(words[2], 7, 112, run_row);
    check_parts(words[1]);
    check_sessions(words[2]);
    check_tags(words[3]);
    check_files(words[4]);
    return tally_end();
}
