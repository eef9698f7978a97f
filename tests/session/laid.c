/* Calls on sessions whose buffers are laid in rooms. */
#include "chance.h"
#include "count.h"
#include "faults.h"
#include "pair.h"
#include "rooms.h"

#include <stdio.h>
#include <string.h>

enum { KEY, COUNTER, WORDS, INPUT, OUTPUT };

static struct room rooms[] = {
    [KEY] = {"key", NULL},     [COUNTER] = {"counter", NULL}, [WORDS] = {"session", NULL},
    [INPUT] = {"input", NULL}, [OUTPUT] = {"output", NULL},
};

static const size_t words_size = FOX_SESSION_WORDS * sizeof(uint64_t);

struct made {
    enum session_verb verb;
    const struct session_call *call;
    uint32_t answer;
};

static void make(void *given)
{
    struct made *m = given;
    m->answer = make_session_call(m->verb, m->call);
}

uint32_t caught_call(enum session_verb verb, const struct session_call *c)
{
    struct made m = {verb, c, FAULTED};
    return work_faults(make, &m) ? FAULTED : m.answer;
}

static struct session_call lay(enum session_verb verb, const struct session_call *c, int at_end)
{
    struct session_call laid = *c;
    laid.session = (void *)room_lay(&rooms[WORDS], c->session, words_size, at_end);
    if (is_start(verb)) {
        laid.key = room_lay(&rooms[KEY], c->key, c->key_len, at_end);
        laid.counter = room_lay(&rooms[COUNTER], c->counter, c->counter_len, at_end);
    }
    if (verb == SESSION_ADVANCE) {
        laid.input = room_lay(&rooms[INPUT], c->input, c->input_len, at_end);
        laid.out = room_lay(&rooms[OUTPUT], c->out, c->out_len, at_end);
    }
    return laid;
}

static const char *fault_words(void)
{
    static char words[64];
    snprintf(words, sizeof words, "faults, beside %s", room_beside(rooms, COUNT(rooms), fault_place()));
    return words;
}

/* The words are by now as the call has left them. */
static const char *wrong_beside(enum session_verb verb, const struct session_call *c, const uint8_t *out, int at_end)
{
    if (!room_holds(&rooms[WORDS], c->session, words_size, at_end))
        return "writes beside the session";
    if (verb == SESSION_ADVANCE && !room_holds(&rooms[OUTPUT], out, c->out_len, at_end))
        return "puts out other bytes, or writes beside them";
    if ((is_start(verb) && !(room_holds(&rooms[KEY], c->key, c->key_len, at_end) &&
                             room_holds(&rooms[COUNTER], c->counter, c->counter_len, at_end))) ||
        (verb == SESSION_ADVANCE && !room_holds(&rooms[INPUT], c->input, c->input_len, at_end)))
        return "changes what was lent for reading, or a byte beside it";
    return NULL;
}

uint32_t laid_call(enum session_verb verb, const struct session_call *c, const uint8_t *out, const char **kept)
{
    int at_end = (int)below(2);
    struct session_call laid = lay(verb, c, at_end);
    uint32_t answer = caught_call(verb, &laid);
    if (answer == FAULTED) {
        *kept = fault_words();
        return FAULTED;
    }
    memcpy(c->session, laid.session, words_size);
    *kept = wrong_beside(verb, c, out != NULL ? out : laid.out, at_end);
    return answer;
}
