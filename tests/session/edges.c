/* The edges of blocks, the run's end, and the counter's words, from every side. */
#include "chance.h"
#include "count.h"
#include "groups.h"
#include "pair.h"
#include "tally.h"

#include <string.h>

static struct pair pair;

/* Answers with the bytes of a block. */
static size_t started(size_t kind)
{
    struct setting s = some_setting(kind);
    hold_start(&pair, &s, FOX_SERVED);
    return s.counter_len;
}

/* From every byte of a block, every number of bytes up to some more than five blocks. */
static void advances_of(size_t b)
{
    for (size_t skip = 0; skip < b; skip++)
        for (size_t len = 0; len <= 5 * b + 1; len++) {
            hold_move(&pair, (1 + below(3)) * b + skip, FOX_SERVED);
            hold_advance(&pair, len, len, FOX_SERVED);
        }
}

void advances_at_edges(void)
{
    group_begin("advances from every byte of a block, up to five blocks and a byte");
    for (size_t kind = 0; kind < KINDS; kind++)
        advances_of(started(kind));
    group_end();
}

/* From every byte of three blocks to every byte of four, both where a move has led to the first and where an advance
 * has; the block in use is the one that both are in, its neighbour, or another. */
static void moves_of(size_t b)
{
    for (size_t from = 1; from <= 3 * b; from++)
        for (size_t to = 0; to <= 4 * b; to++) {
            if (below(2) == 0)
                hold_move(&pair, from, FOX_SERVED);
            else {
                hold_move(&pair, below(from), FOX_SERVED);
                hold_advance(&pair, from - (size_t)pair.plain.position, from - (size_t)pair.plain.position, FOX_SERVED);
            }
            hold_move(&pair, to, FOX_SERVED);
        }
}

void moves_at_edges(void)
{
    group_begin("moves from every byte of three blocks to every byte of four");
    for (size_t kind = 0; kind < KINDS; kind++)
        moves_of(started(kind));
    group_end();
}

/* From every byte of the last two blocks, as many bytes as are left, fewer, and more. */
static void last_blocks(size_t b)
{
    for (size_t left = 0; left <= 2 * b + 1; left++)
        for (size_t len = 0; len <= left + 2; len++) {
            hold_move(&pair, FOX_RUN_END - left, FOX_SERVED);
            hold_advance(&pair, len, len, len <= left ? FOX_SERVED : FOX_REFUSED_END);
            hold_advance(&pair, FOX_MOST_DATA, FOX_MOST_DATA, FOX_REFUSED_END);
            hold_advance(&pair, 0, 0, FOX_SERVED);
        }
}

/* From the end, to which a move or an advance has led, back to every byte of the last two blocks, and to the first. */
static void back_from_end(size_t b)
{
    for (size_t left = 0; left <= 2 * b + 1; left++) {
        const size_t len = below(2 * b);
        hold_move(&pair, FOX_RUN_END - len, FOX_SERVED);
        hold_advance(&pair, len, len, FOX_SERVED);
        hold_move(&pair, FOX_RUN_END - left, FOX_SERVED);
        hold_move(&pair, FOX_RUN_END, FOX_SERVED);
        hold_move(&pair, FOX_RUN_END, FOX_SERVED);
        hold_move(&pair, FOX_RUN_END + 1ull + left, FOX_REFUSED_END);
        hold_move(&pair, FOX_RUN_END - left, FOX_SERVED);
        hold_move(&pair, FOX_RUN_END, FOX_SERVED);
        hold_move(&pair, left, FOX_SERVED);
    }
}

static void longest_at_end(void)
{
    hold_move(&pair, FOX_RUN_END - FOX_MOST_DATA, FOX_SERVED);
    hold_advance(&pair, FOX_MOST_DATA, FOX_MOST_DATA, FOX_SERVED);
    hold_move(&pair, FOX_RUN_END - FOX_MOST_DATA + 1, FOX_SERVED);
    hold_advance(&pair, FOX_MOST_DATA, FOX_MOST_DATA, FOX_REFUSED_END);
    hold_advance(&pair, FOX_MOST_DATA - 1, FOX_MOST_DATA - 1, FOX_SERVED);
    hold_advance(&pair, 1, 1, FOX_REFUSED_END);
}

void run_end(void)
{
    group_begin("the run's last blocks and its end, reached, passed and left again");
    for (size_t kind = 0; kind < KINDS; kind++) {
        const size_t b = started(kind);
        last_blocks(b);
        back_from_end(b);
        longest_at_end();
    }
    group_end();
}

/* A counter whose last `ones` bytes are all ones when the run has come to the block `number`. */
static void set_counter(struct setting *s, size_t ones, uint64_t number)
{
    const size_t b = s->counter_len;
    memset(s->counter + b - ones, 0xFF, ones);
    for (size_t i = 1; i <= b && number > 0; i++) {
        uint64_t byte = s->counter[b - i];
        s->counter[b - i] = (uint8_t)(byte - number);
        number = (number >> 8) + (byte < (number & 0xFF));
    }
}

/* Over the block after which something is carried: at once, byte by byte, forwards and back. */
static void carried(size_t kind, size_t ones, uint64_t number)
{
    struct setting s = some_setting(kind);
    const uint64_t b = s.counter_len, from = number * b;
    set_counter(&s, ones, number);
    hold_start(&pair, &s, FOX_SERVED);
    hold_move(&pair, from + below(b), FOX_SERVED);
    for (int i = 0; i < 3; i++)
        hold_advance(&pair, 3 * b / 4, 3 * b / 4, FOX_SERVED);
    hold_move(&pair, from - (from > 0), FOX_SERVED);
    hold_advance(&pair, 6 * b, 6 * b, FOX_SERVED);
    hold_move(&pair, from + 2 * b - 1, FOX_SERVED);
    for (int i = 0; i < 3; i++)
        hold_advance(&pair, 1, 1, FOX_SERVED);
    hold_move(&pair, from + b, FOX_SERVED);
    hold_move(&pair, from, FOX_SERVED);
    hold_advance(&pair, b, b, FOX_SERVED);
    hold_advance(&pair, b, b, FOX_SERVED);
}

void carries(void)
{
    group_begin("counters with something carried out of each of their bytes, near the run's start and far on");
    for (size_t kind = 0; kind < KINDS; kind++) {
        const uint64_t b = some_setting(kind).counter_len, last = FOX_RUN_END / b - 8;
        const uint64_t numbers[] = {0, 1, 2, 3, 4, 5, 255, 256, 65535, last, last - 1, below(last)};
        for (size_t ones = 1; ones <= b; ones++)
            for (size_t i = 0; i < COUNT(numbers); i++)
                carried(kind, ones, numbers[i]);
    }
    group_end();
}
