/* Sessions: the rows of runs, each opened by moves and advances, and sealed so where its key is long enough; positions,
 * limits and the order of refusals. */
#include "check.h"
#include "hex.h"
#include "second.h"
#include "session.h"
#include "tally.h"

#include <stdio.h>
#include <stdlib.h>
#include <string.h>

enum { RUN_END = 1073741824 };

static void same_position(const struct second_session *s, uint64_t expected, const char *what)
{
    if (case_wrong(s->position == expected))
        printf("%s: at %llu, expected %llu\n", what, (unsigned long long)s->position, (unsigned long long)expected);
}

struct row {
    uint32_t cipher, rounds;
    uint8_t key[MOST_KEY], counter[MOST_BLOCK], data[MOST_ROW], sealed[MOST_ROW];
    size_t key_len, block, len;
    uint64_t offset;
};

static struct row read_row(char **fields)
{
    struct row r = {.cipher = number(fields[0]), .rounds = number(fields[1])};
    r.key_len = hex_read(fields[2], r.key, sizeof r.key);
    r.block = hex_read(fields[3], r.counter, sizeof r.counter);
    r.offset = strtoull(fields[4], NULL, 10);
    r.len = hex_read(fields[5], r.data, sizeof r.data);
    hex_read(fields[6], r.sealed, sizeof r.sealed);
    return r;
}

/* The row's stretch at once, and after a move back in pieces of 1, 2, 3 .. bytes. */
static void one_way(int opening, const struct row *r)
{
    const uint8_t *in = opening ? r->sealed : r->data, *right = opening ? r->data : r->sealed;
    struct second_session s;
    uint8_t out[MOST_ROW];
    same_number(second_session_start(&s, opening, r->cipher, r->rounds, r->key, r->key_len, r->counter, r->block), 0,
                "start");
    same_position(&s, 0, "started");
    same_number(second_session_move(&s, r->offset), 0, "move");
    same_number(second_session_advance(&s, in, r->len, out, r->len), 0, "advance");
    same_bytes(out, right, r->len, opening ? "opened at once" : "sealed at once");
    same_position(&s, r->offset + r->len, "advanced");
    same_number(second_session_move(&s, r->offset), 0, "move back");
    memset(out, 0x5A, sizeof out);
    for (size_t at = 0, piece = 1; at < r->len; at += piece, piece++) {
        piece = piece < r->len - at ? piece : r->len - at;
        same_number(second_session_advance(&s, in + at, piece, out + at, piece), 0, "advance by a piece");
    }
    same_bytes(out, right, r->len, opening ? "opened in pieces" : "sealed in pieces");
    same_position(&s, r->offset + r->len, "advanced in pieces");
    same_number((uint32_t)s.sealing, !opening, "direction");
}

/* A machine that was refused has no key, no counter block, no cipher and no direction. */
static void refused_start(int opening, uint32_t cipher, uint32_t rounds, size_t key_len, size_t counter_len,
                          uint32_t expected)
{
    static const struct second_session none;
    static const uint8_t in[65537] = {0};
    struct second_session s;
    uint8_t out[8];
    memset(&s, 0x5A, sizeof s);
    same_number(second_session_start(&s, opening, cipher, rounds, in, key_len, in, counter_len), expected,
                "a refused start");
    same_bytes((const uint8_t *)&s, (const uint8_t *)&none, sizeof s, "a refused machine");
    same_number(second_session_advance(&s, in, 0, out, 0), 1, "nothing by a refused machine");
    same_number(second_session_advance(&s, in, 65537, out, 9), 1, "1 before 5, 6 and 7");
    same_number(second_session_move(&s, 0), 1, "a move of a refused machine");
    same_number(second_session_move(&s, UINT64_MAX), 1, "1 before 7");
    same_bytes((const uint8_t *)&s, (const uint8_t *)&none, sizeof s, "a refused machine afterwards");
}

/* A row whose key is too short to seal with is opened alone. */
static void run_row(char **fields)
{
    struct row r = read_row(fields);
    one_way(1, &r);
    if (seal_answer(r.key_len) == 0)
        one_way(0, &r);
    else
        refused_start(0, r.cipher, r.rounds, r.key_len, r.block, seal_answer(r.key_len));
}

/* What was refused has moved nothing. */
static void limits(int opening, uint32_t cipher)
{
    static const uint8_t in[65537] = {0};
    struct second_session s;
    uint8_t out[8], painted[8];
    memset(out, 0x5A, sizeof out);
    memcpy(painted, out, sizeof out);
    same_number(second_session_start(&s, opening, cipher, 12, in, opening ? 9 : 16, in, cipher / 8), 0, "start");
    same_number(second_session_move(&s, RUN_END - 4), 0, "four bytes before the end");
    same_number(second_session_advance(&s, in, 65537, out, 9), 5, "5 before 6 and 7");
    same_number(second_session_advance(&s, in, 65536, out, 9), 6, "6 before 7");
    same_number(second_session_advance(&s, in, 5, out, 5), 7, "past the end");
    same_number(second_session_move(&s, RUN_END + 1ull), 7, "a move past the end");
    same_number(second_session_move(&s, UINT64_MAX), 7, "a move far past the end");
    same_bytes(out, painted, sizeof out, "output of refused calls");
    same_position(&s, RUN_END - 4, "after refusals");
    same_number(second_session_advance(&s, in, 4, out, 4), 0, "up to the end");
    same_position(&s, RUN_END, "at the end");
    same_number(second_session_advance(&s, in, 0, out, 0), 0, "nothing at the end");
    same_number(second_session_advance(&s, in, 1, out, 1), 7, "one byte at the end");
    same_number(second_session_move(&s, 0), 0, "back to the beginning");
    same_position(&s, 0, "at the beginning");
}

/* Where a machine was told by hand to seal with a short key: 13 comes after 1 to 3, and before all else. One that opens
 * goes on. */
static void told_to_seal(uint32_t cipher, size_t key_len)
{
    static const uint8_t in[65537] = {0};
    struct second_session s, sealing;
    uint8_t out[9];
    same_number(second_session_start(&s, 1, cipher, 12, in, key_len, in, cipher / 8), 0, "start for opening");
    same_number(second_session_advance(&s, in, 3, out, 3), 0, "an opening machine advances");
    same_number(second_session_move(&s, 5), 0, "an opening machine moves");
    sealing = s, sealing.sealing = 1;
    same_number(second_session_advance(&sealing, in, 3, out, 3), 13, "sealing with a short key");
    same_number(second_session_advance(&sealing, in, 65537, out, 9), 13, "13 before 5, 6 and 7");
    same_number(second_session_move(&sealing, 1), 13, "a move with a short key");
    same_number(second_session_move(&sealing, UINT64_MAX), 13, "13 before 7");
    same_position(&sealing, 5, "after refusals");
    sealing.rounds = 11;
    same_number(second_session_advance(&sealing, in, 3, out, 3), 2, "2 before 13");
    sealing.cipher = 0;
    same_number(second_session_move(&sealing, 1), 1, "1 before 2 and 13");
}

static void refused_starts(void)
{
    for (int opening = 0; opening < 2; opening++) {
        refused_start(opening, 65, 11, 33, 9, 1);
        refused_start(opening, 65, 11, 15, 9, 1);
        refused_start(opening, 64, 11, 33, 9, 2);
        refused_start(opening, 64, 11, 0, 9, 2);
        refused_start(opening, 128, 256, 33, 9, 2);
        refused_start(opening, 128, 12, 33, 8, 3);
        refused_start(opening, 64, 12, 15, 9, opening ? 4 : 13);
        refused_start(opening, 64, 16, 0, 16, opening ? 4 : 13);
        refused_start(opening, 128, 255, 32, 8, 4);
        refused_start(opening, 64, 16, 16, 16, 4);
    }
    refused_start(0, 64, 16, 0, 8, 13);
    refused_start(0, 64, 16, 15, 8, 13);
    refused_start(0, 128, 16, 15, 16, 13);
}

void check_sessions(const char *path)
{
    rows(path, 7, 112, run_row);
    group_begin("sessions: limits, and the order of refusals");
    for (uint32_t cipher = 64; cipher <= 128; cipher += 64) {
        limits(0, cipher);
        limits(1, cipher);
        told_to_seal(cipher, 0);
        told_to_seal(cipher, 15);
    }
    refused_starts();
    group_end();
}
