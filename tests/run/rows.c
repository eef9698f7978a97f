/* The rows of the vectors. */
#include "check.h"
#include "fox.h"
#include "hex.h"
#include "rows.h"
#include "run.h"
#include "tally.h"

#include <stdlib.h>

enum { ROWS = 112, FIELDS = 7 };

/* Opened, and sealed where the key is long enough; where it is not, what was opened stays in the output. */
static void both_ways(const struct engine *engine, struct call c, const uint8_t *plain, const uint8_t *sealed)
{
    uint32_t right = key_answer(SEAL_RUN, c.key_len);
    c.data = sealed;
    check_answer(engine, OPEN_RUN, &c, FOX_SERVED);
    check_bytes(c.out, plain, engine, OPEN_RUN, &c, "the opened row");
    c.data = plain;
    check_answer(engine, SEAL_RUN, &c, right);
    check_bytes(c.out, right == FOX_SERVED ? sealed : plain, engine, SEAL_RUN, &c, "the sealed row");
}

static void row(const struct engine *engine, char **field)
{
    static uint8_t key[64], counter[32], data[256], answer[256], out[256];
    struct call c = {.key = key, .first = counter, .data = data, .out = out};
    size_t answer_len = 0;
    if (field == NULL || !hex_read_all(field[2], key, sizeof key, &c.key_len) ||
        !hex_read_all(field[3], counter, sizeof counter, &c.first_len) ||
        !hex_read_all(field[5], data, sizeof data, &c.data_len) ||
        !hex_read_all(field[6], answer, sizeof answer, &answer_len) || answer_len != c.data_len) {
        check(0, engine, OPEN_RUN, &c, "a row cannot be read");
        return;
    }
    c.cipher = (uint32_t)strtoul(field[0], NULL, 10);
    c.rounds = (uint32_t)strtoul(field[1], NULL, 10);
    c.offset = strtoull(field[4], NULL, 10);
    c.out_len = c.data_len;
    both_ways(engine, c, data, answer);
}

void rows(const struct engine *engine, const char *path)
{
    group_begin("rows of the vectors, opened, and sealed but for short keys: %s", engine->name);
    each_row(path, ROWS, FIELDS, engine, row);
    group_end();
}
