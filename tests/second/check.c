/* Cases that compare, and rows of a file. */
#include "check.h"
#include "count.h"
#include "hex.h"
#include "tally.h"

#include <errno.h>
#include <inttypes.h>
#include <stdio.h>
#include <stdlib.h>
#include <string.h>

void same_bytes(const uint8_t *found, const uint8_t *expected, size_t len, const char *what)
{
    if (case_wrong(memcmp(found, expected, len) == 0)) {
        printf("%s: found ", what);
        hex_print(found, len);
        printf(", expected ");
        hex_print(expected, len);
        printf("\n");
    }
}

void same_number(uint32_t found, uint32_t expected, const char *what)
{
    if (case_wrong(found == expected))
        printf("%s: found %" PRIu32 ", expected %" PRIu32 "\n", what, found, expected);
}

uint32_t seal_answer(size_t key_len)
{
    return key_len < 16 ? 13 : 0;
}

uint32_t number(const char *text)
{
    return (uint32_t)strtoul(text, NULL, 10);
}

/* Cuts a row at its commas, in place; answers with the number of its fields. */
static size_t cut_row(char *row, char **fields, size_t room)
{
    size_t count = 0;
    row[strcspn(row, "\r\n")] = '\0';
    for (char *at = row; at != NULL && count < room; count++) {
        fields[count] = at;
        at = strchr(at, ',');
        if (at != NULL)
            *at++ = '\0';
    }
    return count;
}

/* The first row names the fields. Answers with the number of rows after it. */
static uint32_t all_rows(FILE *file, size_t width, void (*check_row)(char **fields))
{
    char row[MOST_ROW], *fields[8];
    uint32_t count = 0;
    for (int named = 0; fgets(row, sizeof row, file) != NULL; named = 1) {
        size_t found = cut_row(row, fields, COUNT(fields));
        same_number((uint32_t)found, (uint32_t)width, "fields of a row");
        if (named && found == width) {
            check_row(fields);
            count++;
        }
    }
    return count;
}

void rows(const char *path, size_t width, uint32_t expected, void (*check_row)(char **fields))
{
    FILE *file = fopen(path, "r");
    group_begin("%s", path);
    if (file != NULL) {
        same_number(all_rows(file, width, check_row), expected, "rows");
        fclose(file);
    } else if (case_wrong(0)) {
        printf("%s\n", strerror(errno));
    }
    group_end();
}
