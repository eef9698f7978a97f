/* Calls whose buffers are laid in rooms. */
#include "laid.h"
#include "count.h"
#include "faults.h"
#include "rooms.h"

#include <inttypes.h>
#include <stdio.h>
#include <stdlib.h>

enum { KEY, FIRST, DATA, OUTPUT };

static struct room rooms[] = {
    [KEY] = {"key", NULL},
    [FIRST] = {"block, counter or stored tag", NULL},
    [DATA] = {"data or message", NULL},
    [OUTPUT] = {"output or tag", NULL},
};

static void put_output_words(char *words, size_t room, const uint8_t *found, const uint8_t *answer, size_t len)
{
    size_t i = 0;
    while (i < len && found[i] == answer[i])
        i++;
    if (i < len)
        snprintf(words, room, "leaves %02X and not %02X in byte %zu of the output", found[i], answer[i], i);
    else
        snprintf(words, room, "writes beside the output");
}

static struct call lay(const struct call *c, int at_end)
{
    struct call laid = *c;
    if (c->key_len > MOST_LAID || c->first_len > MOST_LAID || c->data_len > MOST_LAID || c->out_len > MOST_LAID)
        abort();
    laid.key = room_lay(&rooms[KEY], c->key, c->key_len, at_end);
    laid.first = room_lay(&rooms[FIRST], c->first, c->first_len, at_end);
    laid.data = room_lay(&rooms[DATA], c->data, c->data_len, at_end);
    laid.out = room_lay(&rooms[OUTPUT], c->out, c->out_len, at_end);
    return laid;
}

const char *laid_wrong(const struct engine *engine, enum verb verb, const struct call *c, int at_end, uint32_t right,
                       const uint8_t *answer)
{
    static char what[96], words[192];
    struct call laid = lay(c, at_end);
    uint32_t found = make_caught(engine, verb, &laid);
    if (found == FAULTED)
        snprintf(what, sizeof what, "faults at %p, beside %s", (const void *)fault_place(),
                 room_beside(rooms, COUNT(rooms), fault_place()));
    else if (found != right)
        snprintf(what, sizeof what, "answers %" PRIu32 " and not %" PRIu32, found, right);
    else if (!room_holds(&rooms[OUTPUT], answer, c->out_len, at_end))
        put_output_words(what, sizeof what, laid.out, answer, c->out_len);
    else if (!room_holds(&rooms[KEY], c->key, c->key_len, at_end) ||
             !room_holds(&rooms[FIRST], c->first, c->first_len, at_end) ||
             !room_holds(&rooms[DATA], c->data, c->data_len, at_end))
        snprintf(what, sizeof what, "changes what was lent for reading, or a byte beside it");
    else
        return NULL;
    snprintf(words, sizeof words, "%s, with buffers that %s a page not to be touched", what,
             at_end ? "end at" : "begin after");
    return words;
}
