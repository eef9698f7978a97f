/* Stopped blocks: the register's steps back, the rows of blocks in two parts, and the order of refusals. */
#include "check.h"
#include "count.h"
#include "hex.h"
#include "part.h"
#include "tally.h"

#include <string.h>

/* 01's known values, read from the last to the first, and the one before the seed, worked out by hand. */
static void known_steps_back(void)
{
    static const uint8_t registers[][3] = {
        {0x50, 0x87, 0x55}, {0xA8, 0x43, 0xA7}, {0xD4, 0x21, 0xDE}, {0x6A, 0x10, 0xEF}, {0xB5, 0x08, 0x7A}};
    uint8_t reg[3] = {0x50, 0x87, 0x55};
    for (size_t i = 0; i < COUNT(registers); i++) {
        same_bytes(reg, registers[i], sizeof reg, "register, backwards");
        second_step_back(reg);
    }
}

/* The register comes back after 2^24 - 1 steps, whatever it stands at, so that all of these but one go one step back. */
static void once_round(void)
{
    uint8_t on[3], back[3];
    second_seed(on, 16);
    second_seed(back, 16);
    second_step_back(back);
    for (unsigned long i = 0; i < (1ul << 24) - 2; i++)
        second_step(on);
    same_bytes(on, back, sizeof on, "once round but for a step");
}

/* A row, sealed or opened. */
struct row {
    int opening;
    uint32_t cipher, rounds;
    uint8_t key[MOST_KEY], block[MOST_BLOCK], turned[MOST_BLOCK];
    size_t key_len, b;
    struct second_stops stops;
};

/* In two parts, which are held to the list of all stops. */
static void two_parts(const struct row *r, uint32_t at)
{
    uint8_t state[MOST_BLOCK], out[MOST_BLOCK];
    uint32_t reg = 0;
    same_number(second_part(r->opening, r->cipher, r->rounds, r->key, r->key_len, 0, at, 0x5A5A5A5A, r->block, r->b, state,
                            r->b, &reg), 0, "a part");
    same_bytes(state, r->stops.state[at], r->b, "state");
    same_number(reg, r->stops.reg[at], "register");
    same_number(second_part(r->opening, r->cipher, r->rounds, r->key, r->key_len, at, r->rounds, reg, state, r->b, out,
                            r->b, &reg), 0, "the rest");
    same_bytes(out, r->turned, r->b, "block in two parts");
    same_number(reg, r->stops.reg[r->rounds], "register past the last round");
}

static void refused(int opening, uint32_t cipher, uint32_t rounds, size_t key_len, size_t block_len, size_t out_len,
                    uint32_t expected)
{
    static const uint8_t in[64] = {0};
    uint8_t out[32], painted[32];
    uint32_t reg = 0x5A5A5A;
    memset(out, 0x5A, sizeof out);
    memcpy(painted, out, sizeof out);
    same_number(second_part(opening, cipher, rounds, in, key_len, 3, 5, 7, in, block_len, out, out_len, &reg), expected,
                "a refused part");
    same_number(reg, 0, "register of a refused part");
    same_bytes(out, painted, sizeof out, "output of a refused part");
}

static void one_way(int opening, char **fields)
{
    static struct row r;
    r.opening = opening, r.cipher = number(fields[0]), r.rounds = number(fields[1]);
    r.key_len = hex_read(fields[2], r.key, sizeof r.key);
    r.b = hex_read(fields[opening ? 4 : 3], r.block, sizeof r.block);
    hex_read(fields[opening ? 3 : 4], r.turned, sizeof r.turned);
    second_stops(&r.stops, opening, r.cipher, r.rounds, r.key, r.key_len, r.block);
    const uint32_t at[] = {0, 1, r.rounds / 2, r.rounds - 1, r.rounds};
    for (size_t i = 0; i < COUNT(at); i++)
        two_parts(&r, at[i]);
}

/* A row whose key is too short to seal with is opened alone. */
static void block_row(char **fields)
{
    size_t key_len = strlen(fields[2]) / 2, b = strlen(fields[3]) / 2;
    one_way(1, fields);
    if (seal_answer(key_len) == 0)
        one_way(0, fields);
    else
        refused(0, number(fields[0]), number(fields[1]), key_len, b, b, seal_answer(key_len));
}

void check_parts(const char *path)
{
    group_begin("the register's steps back");
    known_steps_back();
    once_round();
    group_end();
    rows(path, 5, 252, block_row);
    group_begin("parts of a block: the order of refusals");
    for (int opening = 0; opening < 2; opening++) {
        refused(opening, 65, 11, 33, 7, 9, 1);
        refused(opening, 64, 11, 33, 7, 9, 2);
        refused(opening, 128, 256, 33, 8, 9, 2);
        refused(opening, 128, 12, 33, 8, 9, 3);
        refused(opening, 65, 11, 15, 7, 9, 1);
        refused(opening, 64, 11, 0, 7, 9, 2);
        refused(opening, 64, 12, 0, 7, 9, opening ? 4 : 13);
        refused(opening, 128, 255, 15, 16, 8, opening ? 6 : 13);
        refused(opening, 128, 255, 16, 8, 9, 4);
        refused(opening, 64, 16, 16, 8, 16, 6);
    }
    group_end();
}
