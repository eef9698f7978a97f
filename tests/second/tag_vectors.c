/* Tags: CMAC over AES-128 beside the published examples first, and then over FOX beside the rows of a file. */
#include "aes.h"
#include "check.h"
#include "cmac.h"
#include "count.h"
#include "hex.h"
#include "parts.h"
#include "second.h"
#include "tally.h"

#include <stdio.h>
#include <string.h>

enum { MOST_MESSAGE = 1073741824 };

/* The key of SP 800-38B's examples with AES-128, and of RFC 4493's. */
static const char example_key[] = "2B7E151628AED2A6ABF7158809CF4F3C";

static void aes_examples(void)
{
    static const struct {
        const char *key, *plain, *sealed;
    } examples[] = {
        {example_key, "3243F6A8885A308D313198A2E0370734", "3925841D02DC09FBDC118597196A0B32"},
        {"000102030405060708090A0B0C0D0E0F", "00112233445566778899AABBCCDDEEFF", "69C4E0D86A7B0430D8CDB78070B4C55A"},
    };
    group_begin("AES-128 of the self-check: FIPS 197, appendices B and C.1");
    for (size_t i = 0; i < COUNT(examples); i++) {
        uint8_t key[16], x[16], sealed[16];
        hex_read(examples[i].key, key, sizeof key);
        hex_read(examples[i].plain, x, sizeof x);
        hex_read(examples[i].sealed, sealed, sizeof sealed);
        aes_seal(key, x);
        same_bytes(x, sealed, sizeof x, "sealed block");
    }
    group_end();
}

/* L, K1 and K2. The first four of each size have the four cases of the top bits of L and K1, and in the fourth every
 * byte carries. The others are those of the examples in SP 800-38B: TDEA with three keys and with two, and AES-128. */
static void doubling(void)
{
    static const char *const doubled[][3] = {
        {"0000000000000001", "0000000000000002", "0000000000000004"},
        {"4000000000000000", "8000000000000000", "000000000000001B"},
        {"8000000000000000", "000000000000001B", "0000000000000036"},
        {"FFFFFFFFFFFFFFFF", "FFFFFFFFFFFFFFE5", "FFFFFFFFFFFFFFD1"},
        {"C8CC74E98A7329A2", "9198E9D314E6535F", "2331D3A629CCA6A5"},
        {"C7679B9F6B8D7D7A", "8ECF373ED71AFAEF", "1D9E6E7DAE35F5C5"},
        {"00000000000000000000000000000001", "00000000000000000000000000000002", "00000000000000000000000000000004"},
        {"40000000000000000000000000000000", "80000000000000000000000000000000", "00000000000000000000000000000087"},
        {"80000000000000000000000000000000", "00000000000000000000000000000087", "0000000000000000000000000000010E"},
        {"FFFFFFFFFFFFFFFFFFFFFFFFFFFFFFFF", "FFFFFFFFFFFFFFFFFFFFFFFFFFFFFF79", "FFFFFFFFFFFFFFFFFFFFFFFFFFFFFE75"},
        {"7DF76B0C1AB899B33E42F047B91B546F", "FBEED618357133667C85E08F7236A8DE", "F7DDAC306AE266CCF90BC11EE46D513B"},
    };
    group_begin("blocks of 8 and of 16 bytes doubled, and doubled again");
    for (size_t i = 0; i < COUNT(doubled); i++) {
        uint8_t x[MOST_BLOCK], expected[MOST_BLOCK];
        size_t block = hex_read(doubled[i][0], x, sizeof x);
        for (size_t k = 1; k < 3; k++) {
            hex_read(doubled[i][k], expected, sizeof expected);
            second_double(x, block);
            same_bytes(x, expected, block, doubled[i][0]);
        }
    }
    group_end();
}

static void cmac_examples(void)
{
    static const char message_text[] = "6BC1BEE22E409F96E93D7E117393172AAE2D8A571E03AC9C9EB76FAC45AF8E51"
                                       "30C81C46A35CE411E5FBC1191A0A52EFF69F2445DF4F9B17AD2B417BE66C3710";
    static const struct {
        size_t len;
        const char *tag;
    } examples[] = {
        {0, "BB1D6929E95937287FA37D129B756746"},
        {16, "070A16B46B4D4144F79BDD9DD04A287C"},
        {40, "DFA66747DE9AE63030CA32611497C827"},
        {64, "51F0BEBF7E3B9D92FC49741779363CFE"},
    };
    uint8_t key[16], message[64], l[16] = {0}, k1[16], k2[16], tag[16], expected[16];
    group_begin("CMAC with AES-128: SP 800-38B, appendix D.1, and RFC 4493");
    hex_read(example_key, key, sizeof key);
    hex_read(message_text, message, sizeof message);
    aes_seal(key, l);
    hex_read("7DF76B0C1AB899B33E42F047B91B546F", expected, sizeof expected);
    same_bytes(l, expected, 16, "L");
    second_subkeys(k1, k2, 16, aes_seal, key);
    hex_read("FBEED618357133667C85E08F7236A8DE", expected, sizeof expected);
    same_bytes(k1, expected, 16, "K1");
    hex_read("F7DDAC306AE266CCF90BC11EE46D513B", expected, sizeof expected);
    same_bytes(k2, expected, 16, "K2");
    for (size_t i = 0; i < COUNT(examples); i++) {
        hex_read(examples[i].tag, expected, sizeof expected);
        second_cmac(tag, 16, aes_seal, key, message, examples[i].len);
        same_bytes(tag, expected, 16, examples[i].tag);
    }
    group_end();
}

/* The message is NULL wherever its length is none that may be read, so that reading a byte of it would fault. */
static void refusals(void)
{
    static const uint8_t in[33] = {0};
    const size_t most = MOST_MESSAGE;
    uint8_t out[32], painted[32];
    group_begin("refusals of tags in their order, nothing written, no long message read");
    memset(out, 0x5A, sizeof out);
    memcpy(painted, out, sizeof out);
    same_number(second_make_tag(65, 11, in, 33, NULL, most + 1, out, 7), 1, "make: 1 before all");
    same_number(second_make_tag(64, 11, in, 33, NULL, most + 1, out, 7), 2, "make: 2 before 3, 5 and 6");
    same_number(second_make_tag(64, 256, in, 33, NULL, most + 1, out, 7), 2, "make: 2 for 256 rounds");
    same_number(second_make_tag(128, 12, in, 33, NULL, most + 1, out, 8), 3, "make: 3 before 5 and 6");
    same_number(second_make_tag(128, 255, in, 32, NULL, most + 1, out, 8), 5, "make: 5 before 6");
    same_number(second_make_tag(64, 12, in, 32, NULL, SIZE_MAX, out, 8), 5, "make: 5 for the longest length");
    same_number(second_make_tag(64, 12, in, 32, NULL, most, out, 16), 6, "make: 6, not 5, at the limit");
    same_number(second_make_tag(128, 12, in, 32, in, 0, out, 0), 6, "make: 6 for no buffer");
    same_bytes(out, painted, sizeof out, "tags of refused calls");
    same_number(second_test_tag(127, 256, in, 33, NULL, most + 1, in, 7), 1, "test: 1 before all");
    same_number(second_test_tag(128, 256, in, 33, NULL, most + 1, in, 7), 2, "test: 2 before 3, 5 and 9");
    same_number(second_test_tag(128, 11, in, 33, NULL, most + 1, in, 7), 2, "test: 2 for 11 rounds");
    same_number(second_test_tag(64, 255, in, 33, NULL, most + 1, in, 7), 3, "test: 3 before 5 and 9");
    same_number(second_test_tag(64, 12, in, 32, NULL, most + 1, in, 7), 5, "test: 5 before 9");
    same_number(second_test_tag(128, 12, in, 32, NULL, SIZE_MAX, in, 16), 5, "test: 5 for the longest length");
    same_number(second_test_tag(128, 12, in, 32, NULL, most, in, 8), 9, "test: 9, not 5, at the limit");
    same_number(second_test_tag(64, 12, in, 32, in, 0, in, 0), 9, "test: 9 for no tag");
    same_number(second_test_tag(64, 12, in, 32, in, 0, in, 8), 10, "test: 10");
    group_end();
}

/* How many rows there were of each cipher, of each case of the top bits of L and K1, and of last blocks that were not
 * whole and that were. */
static uint32_t seen[2][4][2];

static void count_case(uint32_t cipher, uint32_t rounds, const uint8_t *key, size_t key_len, size_t len)
{
    uint8_t keys[MOST_ROUNDS * MOST_BLOCK], x[MOST_BLOCK] = {0};
    size_t block = cipher / 8;
    second_round_keys(keys, block, rounds, key, key_len);
    second_seal_rounds(x, block, keys, rounds);
    int of_l = x[0] >> 7;
    second_double(x, block);
    seen[cipher == 128][2 * of_l + (x[0] >> 7)][len > 0 && len % block == 0]++;
}

static void tag_row(char **fields)
{
    static unsigned turn = 0;
    uint8_t key[MOST_KEY], message[MOST_ROW], tag[MOST_BLOCK + 1] = {0}, out[MOST_BLOCK] = {0};
    uint32_t cipher = number(fields[0]), rounds = number(fields[1]);
    size_t key_len = hex_read(fields[2], key, sizeof key), len = hex_read(fields[3], message, sizeof message);
    size_t block = hex_read(fields[4], tag, MOST_BLOCK);
    same_number((uint32_t)block * 8, cipher, "bits of the tag");
    same_number(second_make_tag(cipher, rounds, key, key_len, message, len, out, block), 0, fields[4]);
    same_bytes(out, tag, block, "tag");
    same_number(second_test_tag(cipher, rounds, key, key_len, message, len, tag, block), 0, fields[4]);
    same_number(second_test_tag(cipher, rounds, key, key_len, message, len, tag, block - 1), 9, "a byte less");
    same_number(second_test_tag(cipher, rounds, key, key_len, message, len, tag, block + 1), 9, "a byte more");
    /* One bit of each byte in turn, and with the next row the bit beside it. */
    uint8_t bit = (uint8_t)(1u << turn++ % 8);
    for (size_t i = 0; i < block; i++) {
        tag[i] ^= bit;
        same_number(second_test_tag(cipher, rounds, key, key_len, message, len, tag, block), 10, "one bit changed");
        tag[i] ^= bit;
    }
    count_case(cipher, rounds, key, key_len, len);
}

static void all_cases_seen(void)
{
    group_begin("the rows have all top bits of L and K1, with last blocks of both kinds");
    for (unsigned i = 0; i < COUNT(seen); i++)
        for (unsigned bits = 0; bits < 4; bits++)
            for (int whole = 0; whole < 2; whole++)
                if (case_wrong(seen[i][bits][whole] > 0))
                    printf("FOX%u has no row with top bits %u and %u and a last block that is %s\n", 64 + 64 * i,
                           bits >> 1, bits & 1, whole ? "whole" : "not whole");
    group_end();
}

void check_tags(const char *path)
{
    aes_examples();
    doubling();
    cmac_examples();
    refusals();
    rows(path, 5, 176, tag_row);
    all_cases_seen();
}
