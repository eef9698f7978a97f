/* Runs cut at random: the same run in other cuts, in one call, and by another engine. */
#include "chance.h"
#include "check.h"
#include "run.h"
#include "setting.h"
#include "tally.h"

#include <stdio.h>
#include <string.h>

enum { LONG_RUN = 200000, WHOLE = 1 << 16 };

/* One run: its plain bytes, and what each engine has made of the part that it takes, by the setting's `sealing`. */
struct work {
    struct setting setting;
    uint64_t offset;
    size_t len, at[ENGINES], part[ENGINES];
    uint8_t plain[LONG_RUN], sealed[ENGINES][LONG_RUN];
};

/* The length of a piece that begins at `offset`. Half of the pieces end at a block edge of the run, or a byte before or
 * after one, unless the run ends first; the others are empty, the longest, or of a random length. */
static size_t cut(size_t block, uint64_t offset, size_t left)
{
    size_t len = 0;
    switch (below(8)) {
    case 0:
        break;
    case 1:
        len = below(FOX_MOST_DATA + 1);
        break;
    case 2:
        len = FOX_MOST_DATA;
        break;
    case 3:
        len = below(64 * block);
        break;
    default:
        len = block - offset % block + below(10) * block + below(3) - 1;
    }
    return len < left ? len : left;
}

/* The engine's answer in random cuts over `len` bytes from place `at` of the run, which is to be `expected` where
 * that is not NULL. */
static void in_cuts(const struct engine *engine, enum verb verb, const struct work *w, size_t at, const uint8_t *data,
                    size_t len, uint8_t *out, const uint8_t *expected, const char *of)
{
    struct call whole = call_of(&w->setting, w->offset + at, data, len, out);
    memset(out, 0x77, len);
    for (size_t done = 0; done < len;) {
        size_t piece = cut(w->setting.block, whole.offset + done, len - done);
        struct call c = call_of(&w->setting, whole.offset + done, data + done, piece, out + done);
        check_answer(engine, verb, &c, FOX_SERVED);
        done += piece;
    }
    if (expected != NULL)
        check_bytes(out, expected, engine, verb, &whole, of);
}

static void in_one(const struct engine *engine, const struct work *w, size_t at, size_t len, const uint8_t *expected)
{
    static uint8_t out[FOX_MOST_DATA];
    struct call c = call_of(&w->setting, w->offset + at, w->plain + at, len, out);
    memset(out, 0x77, len);
    check_answer(engine, w->setting.sealing, &c, FOX_SERVED);
    check_bytes(out, expected, engine, w->setting.sealing, &c, "one call over what was sealed in cuts");
}

/* An engine by itself, on the part that its work allows. Of two parts of one run the shorter lies in the longer. */
static void alone(struct work *w, size_t i, size_t place)
{
    size_t most = engines[i].work / w->setting.rounds;
    size_t part = w->part[i] = most < w->len ? most : w->len;
    size_t at = w->at[i] = (w->len - part) * place / WHOLE;
    in_cuts(&engines[i], w->setting.sealing, w, at, w->plain + at, part, w->sealed[i] + at, NULL, "");
    if (part <= FOX_MOST_DATA)
        in_one(&engines[i], w, at, part, w->sealed[i] + at);
}

/* The engine with the longest part in other cuts, and what it opens of its own; the other engines do both with what
 * this one sealed. */
static void longest_again(const struct work *w)
{
    static uint8_t out[LONG_RUN];
    size_t longest = 0;
    for (size_t i = 1; i < ENGINES; i++)
        longest = w->part[i] > w->part[longest] ? i : longest;
    const struct engine *engine = &engines[longest];
    size_t at = w->at[longest], part = w->part[longest];
    const uint8_t *plain = w->plain + at, *sealed = w->sealed[longest] + at;
    in_cuts(engine, w->setting.sealing, w, at, plain, part, out, sealed, "the same run in other cuts");
    in_cuts(engine, OPEN_RUN, w, at, sealed, part, out, plain, "what it opened in cuts of its own");
}

/* What one engine sealed is what the other one sealed, and is opened by it in other cuts. */
static void by_two(const struct work *w, size_t seals, size_t opens)
{
    static uint8_t out[LONG_RUN];
    char of[96];
    size_t less = w->part[seals] < w->part[opens] ? seals : opens, at = w->at[less], part = w->part[less];
    const uint8_t *sealed = w->sealed[seals] + at;
    struct call c = call_of(&w->setting, w->offset + at, w->plain + at, part, NULL);
    snprintf(of, sizeof of, "what it sealed in cuts from what the %s sealed", engines[seals].name);
    check_bytes(w->sealed[opens] + at, sealed, &engines[opens], w->setting.sealing, &c, of);
    snprintf(of, sizeof of, "what it opened in cuts of the %s's", engines[seals].name);
    in_cuts(&engines[opens], OPEN_RUN, w, at, sealed, part, out, w->plain + at, of);
}

static void cuts(const struct setting *s, uint64_t offset, size_t len)
{
    static struct work w;
    size_t place = below(3) == 0 ? WHOLE : below(WHOLE + 1);
    w.setting = *s, w.offset = offset, w.len = len;
    fill(w.plain, len);
    for (size_t i = 0; i < ENGINES; i++)
        alone(&w, i, place);
    longest_again(&w);
    for (size_t i = 0; i < ENGINES; i++)
        for (size_t j = 0; j < ENGINES; j++)
            if (i != j)
                by_two(&w, i, j);
}

void random_cuts(uint32_t cipher)
{
    enum { LONG = 3, SHORT = 8 };
    group_begin("runs in random cuts, by every engine and every two: FOX%u", (unsigned)cipher);
    for (int i = 0; i < LONG + SHORT; i++) {
        struct setting s = some_setting(cipher);
        size_t len = i < LONG ? LONG_RUN : 9000 + below(9000);
        cuts(&s, i % 2 == 0 ? 0 : below(FOX_RUN_END - LONG_RUN), len);
    }
    group_end();
    group_begin("runs in random cuts up to the end of the longest run: FOX%u", (unsigned)cipher);
    for (int i = 0; i < SHORT; i++) {
        struct setting s = some_setting(cipher);
        size_t len = i == 0 ? LONG_RUN : 9000 + below(9000);
        cuts(&s, FOX_RUN_END - len, len);
    }
    group_end();
}
