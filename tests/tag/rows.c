/* The rows of the vectors. */
#include "rows.h"
#include "check.h"
#include "fox.h"
#include "hex.h"
#include "tag.h"
#include "tally.h"

#include <stdio.h>
#include <stdlib.h>

enum { ROWS = 176, FIELDS = 5 };

/* Every byte of the room is another one than it has to become. */
static void made(const struct engine *engine, struct call c, const uint8_t *tag)
{
    uint8_t room[FOX128_BLOCK];
    c.out = room, c.out_len = c.first_len;
    for (size_t i = 0; i < c.out_len; i++)
        room[i] = (uint8_t)~tag[i];
    check_laid(engine, MAKE_TAG, &c, 0, FOX_SERVED, tag);
    check_laid(engine, MAKE_TAG, &c, 1, FOX_SERVED, tag);
}

static void tested(const struct engine *engine, const struct call *c, uint8_t *tag)
{
    check_laid(engine, TEST_TAG, c, 0, FOX_SERVED, NULL);
    check_laid(engine, TEST_TAG, c, 1, FOX_SERVED, NULL);
    for (size_t i = 0; i < c->first_len; i++) {
        const uint8_t bit = (uint8_t)(1 << i % 8);
        tag[i] ^= bit;
        check_laid(engine, TEST_TAG, c, (int)(i % 2), FOX_REFUSED_TAG, NULL);
        tag[i] ^= bit;
    }
}

static void row(const struct engine *engine, char **field)
{
    static uint8_t key[64], message[512], tag[32];
    struct call c = {.key = key, .first = tag, .data = message};
    if (field == NULL || !hex_read_all(field[2], key, sizeof key, &c.key_len) ||
        !hex_read_all(field[3], message, sizeof message, &c.data_len) ||
        !hex_read_all(field[4], tag, sizeof tag, &c.first_len) || c.first_len > FOX128_BLOCK) {
        if (case_wrong(0))
            printf("a row cannot be read\n");
        return;
    }
    c.cipher = (uint32_t)strtoul(field[0], NULL, 10);
    c.rounds = (uint32_t)strtoul(field[1], NULL, 10);
    made(engine, c, tag);
    tested(engine, &c, tag);
}

void rows(const struct engine *engine, const char *path)
{
    group_begin("rows of the vectors, made and tested, buffers beside pages not to be touched: %s", engine->name);
    each_row(path, ROWS, FIELDS, engine, row);
    group_end();
}
