/* The calls on sessions by name, and one of them shown. */
#include "session_call.h"
#include "hex.h"

#include <inttypes.h>
#include <stdio.h>

enum { SHOWN = 160 };

const char *const session_verbs[SESSION_VERBS] = {
    [SESSION_START_SEALING] = "session_start_sealing",
    [SESSION_START_OPENING] = "session_start_opening",
    [SESSION_ADVANCE] = "session_advance",
    [SESSION_MOVE] = "session_move",
};

void show_session_call(enum session_verb verb, const struct session_call *c)
{
    printf("fox_%s", session_verbs[verb]);
    switch (verb) {
    case SESSION_START_SEALING:
    case SESSION_START_OPENING:
        printf(": cipher %" PRIu32 ", rounds %" PRIu32, c->cipher, c->rounds);
        hex_show("key", c->key, c->key_len, SHOWN);
        hex_show("counter", c->counter, c->counter_len, SHOWN);
        break;
    case SESSION_ADVANCE:
        hex_show("input", c->input, c->input_len, SHOWN);
        printf(", output of %zu bytes", c->out_len);
        break;
    default:
        printf(" to %" PRIu64, c->position);
    }
}
