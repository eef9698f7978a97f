/* The sheet in hand. */
#include "written.h"
#include "chance.h"
#include "sheet.h"
#include "tally.h"

#include <inttypes.h>
#include <stdio.h>
#include <stdlib.h>
#include <string.h>

enum { MOST_TEXT = 6 << 20, MOST_SHOWN = 1000, MOST_LATE = 2 };

static char *const *bench;
static uint8_t text[MOST_TEXT];
static size_t text_len;

void bench_is(char *const *command)
{
    bench = command;
}

void put_bytes(const void *bytes, size_t len)
{
    if (len > MOST_TEXT - text_len) {
        fprintf(stderr, "sheets: a sheet has no room\n");
        exit(2);
    }
    memcpy(text + text_len, bytes, len);
    text_len += len;
}

void put(const char *part)
{
    put_bytes(part, strlen(part));
}

void put_number(uint32_t number)
{
    char digits[16];
    snprintf(digits, sizeof digits, "%" PRIu32, number);
    put(digits);
}

void put_pairs(size_t pairs)
{
    for (size_t i = 0; i < 2 * pairs; i++)
        put_bytes(&"0123456789ABCDEF"[below(16)], 1);
}

void put_many(uint8_t byte, size_t count)
{
    for (size_t i = 0; i < count; i++)
        put_bytes(&byte, 1);
}

void put_noise(size_t len)
{
    for (size_t i = 0; i < len; i += sizeof(uint64_t)) {
        uint64_t noise = any_number();
        put_bytes(&noise, sizeof noise);
    }
}

size_t put_so_far(void)
{
    return text_len;
}

void cut_to(size_t len)
{
    text_len = len;
}

void leave_out(size_t place)
{
    memmove(text + place, text + place + 1, text_len - place - 1);
    text_len--;
}

void put_in(size_t place, uint8_t byte)
{
    put_bytes("", 1);
    memmove(text + place + 1, text + place, text_len - place - 1);
    text[place] = byte;
}

void put_over(size_t place, uint8_t byte)
{
    text[place] = byte;
}

/* So that a sheet can be typed in again, a byte that cannot be seen is shown as \xNN. */
static void show(const char *what, const void *bytes, size_t len)
{
    const uint8_t *at = bytes;
    printf(" %s (%zu bytes) \"", what, len);
    for (size_t i = 0; i < len && i < MOST_SHOWN; i++)
        if (at[i] == '\n')
            printf("\\n");
        else if (at[i] < ' ' || at[i] > '~')
            printf("\\x%02X", at[i]);
        else
            putchar(at[i]);
    printf("\"%s", len > MOST_SHOWN ? ".." : "");
}

/* A program that was late twice is not started again, or this would go on for hours. */
void try_fed(struct feeding how)
{
    static struct printed p;
    static int late;
    char expected[MOST_ANSWER];
    size_t len = second_sheet(text, text_len, expected, sizeof expected);
    int started = late < MOST_LATE && program_run(bench, text, text_len, how, &p);
    late += started && p.late;
    int right = started && p.ended && p.len == len && memcmp(p.bytes, expected, len) == 0;
    if (case_wrong(right)) {
        show("sheet", text, text_len);
        show("expected", expected, len);
        show(p.ended ? "printed" : "did not end by itself, printed", p.bytes,
             p.len < MOST_PRINTED ? p.len : MOST_PRINTED);
        printf("\n");
    }
    text_len = 0;
}

void try_sheet(void)
{
    try_fed((struct feeding){0, 0});
}
