/* The speed of sessions, each beside a run from key bytes on the same bytes: an advance inside the block in use, one that
 * goes on into the next block, one as long as may be, and a display that takes four bytes at a time. */
#include "sessions.h"
#include "chance.h"
#include "count.h"
#include "fox.h"
#include "pairs.h"

#include <stdio.h>
#include <string.h>

enum { ROUNDS = 16, KEY_LEN = 16, FEW = 2, BYTES_OF_DISPLAY = 4, OF_DISPLAY = 4096 };

/* What is asked, and for the display, of which nothing is asked, 1. */
static const double inside_asked = 10, next_asked = 3, long_asked = 0.95;

static uint8_t key[KEY_LEN], counter[FOX128_BLOCK], data[FOX_MOST_DATA], out[FOX_MOST_DATA], run_out[FOX_MOST_DATA];
static uint32_t cipher;

/* A session before each call, and those of its words that the call changes, so that the call can be made again without
 * moving all words. */
static uint64_t session[FOX_SESSION_WORDS];
static struct {
    size_t word;
    uint64_t before;
} changed[FOX_SESSION_WORDS];
static size_t changes;

static uint32_t advance(uint64_t offset, size_t len)
{
    (void)offset;
    uint32_t refusal = fox_session_advance(session, data, len, out, len);
    for (size_t i = 0; i < changes; i++)
        session[changed[i].word] = changed[i].before;
    return refusal;
}

static uint32_t run(uint64_t offset, size_t len)
{
    return fox_server_seal_run(cipher, ROUNDS, key, KEY_LEN, counter, cipher / 8, offset, data, len, run_out, len);
}

/* Few bytes after few, from the run's start. */
static uint32_t display(uint64_t offset, size_t len)
{
    uint32_t refusal = fox_session_move(session, offset);
    for (size_t at = 0; at < len && refusal == FOX_SERVED; at += BYTES_OF_DISPLAY)
        refusal = fox_session_advance(session, data + at, BYTES_OF_DISPLAY, out + at, BYTES_OF_DISPLAY);
    return refusal;
}

static uint32_t display_by_runs(uint64_t offset, size_t len)
{
    uint32_t refusal = FOX_SERVED;
    for (size_t at = 0; at < len && refusal == FOX_SERVED; at += BYTES_OF_DISPLAY)
        refusal = fox_server_seal_run(cipher, ROUNDS, key, KEY_LEN, counter, cipher / 8, offset + at, data + at,
                                      BYTES_OF_DISPLAY, run_out + at, BYTES_OF_DISPLAY);
    return refusal;
}

/* A session at the offset, and which words an advance of so many bytes changes there. It is held to the run. */
static int stand(uint64_t offset, size_t len)
{
    uint64_t before[FOX_SESSION_WORDS];
    int right = fox_session_start_sealing(cipher, ROUNDS, key, KEY_LEN, counter, cipher / 8, session) == FOX_SERVED &&
                fox_session_move(session, offset) == FOX_SERVED;
    memcpy(before, session, sizeof before);
    changes = 0;
    right = right && advance(offset, len) == FOX_SERVED && run(offset, len) == FOX_SERVED &&
            memcmp(out, run_out, len) == 0;
    for (size_t i = 0; i < FOX_SESSION_WORDS; i++)
        if (session[i] != before[i]) {
            changed[changes].word = i;
            changed[changes++].before = before[i];
        }
    memcpy(session, before, sizeof before);
    if (!right)
        printf("speed: FOX%u: an advance of %zu bytes at %u differs from a run\n", (unsigned)cipher, len,
               (unsigned)offset);
    return right;
}

static int show_advance(const char *name, uint64_t offset, size_t len, double asked)
{
    if (!stand(offset, len))
        return 0;
    const struct side advanced = {name, advance, offset, len}, by_run = {"server", run, offset, len};
    show(&advanced, &by_run, asked, EVERYWHERE);
    return 1;
}

static int show_display(void)
{
    const struct side few = {"advances of 4 bytes", display, 0, OF_DISPLAY};
    const struct side runs = {"server", display_by_runs, 0, OF_DISPLAY};
    if (!stand(0, BYTES_OF_DISPLAY) || display(0, OF_DISPLAY) != FOX_SERVED || display_by_runs(0, OF_DISPLAY) != 0 ||
        memcmp(out, run_out, OF_DISPLAY) != 0)
        return 0;
    show(&few, &runs, 1, NOWHERE);
    return 1;
}

int show_sessions(void)
{
    chance_from(5);
    fill(key, sizeof key);
    fill(counter, sizeof counter);
    fill(data, sizeof data);
    for (cipher = FOX64; cipher <= FOX128; cipher += FOX64) {
        const uint64_t block = cipher / 8;
        show_setting(cipher, KEY_LEN);
        if (!show_advance("advance inside the block", block + 1, FEW, inside_asked) ||
            !show_advance("advance into the next block", block - 1, FEW, next_asked) ||
            !show_advance("advance of 65,536", 0, FOX_MOST_DATA, long_asked) ||
            !show_advance("the same from byte 3 on", 3, FOX_MOST_DATA, long_asked) || !show_display())
            return 0;
    }
    return 1;
}
