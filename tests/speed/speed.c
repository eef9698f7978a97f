/* The speed of the library's runs and tags beside that of plain C code, and of its run files and sessions beside its own
 * runs and tags, side by side in one process. The C code and every engine are first held to the server's answers, and
 * nothing is measured where they differ. A figure that is missed is said and is no error. */
#include "chance.h"
#include "compilers.h"
#include "count.h"
#include "engines.h"
#include "files.h"
#include "fox.h"
#include "pairs.h"
#include "plain.h"
#include "sessions.h"

#include <stdio.h>
#include <string.h>

enum { STRETCH = FOX_MOST_DATA, SHORT_STRETCH = 2048, ROUNDS = 16, HIGH = FOX_RUN_END - STRETCH };

/* What is timed, and how many times as fast as the C code for one block the server is to be in a run. */
static const struct setting {
    uint32_t cipher;
    size_t key_len;
    double asked;
} settings[] = {{FOX64, 16, 2.0}, {FOX64, 32, 2.0}, {FOX128, 16, 1.8}};

/* The same for a tag, in every setting. The blocks of a message cannot go side by side, so C is hard to outrun. And for
 * the card beside the C code with small S-boxes, which keeps them in memory. */
static const double tag_asked = 0.9, card_asked = 0.9;

static uint8_t key[FOX_MOST_KEY], counter[FOX128_BLOCK], input[LONG_MESSAGE], out[STRETCH], answer[STRETCH];
static uint32_t cipher, rounds = ROUNDS;
static size_t key_len;
static struct plain_key prepared;

/* What is compared. Each works on the first `len` bytes of the input; the prepared key is ready. Runs are opened, which
 * every key does; sealing is the same XOR. Tags take no notice of the offset. */

static uint32_t by_engine(const struct engine *engine, uint64_t offset, size_t len)
{
    return engine->open_run(cipher, rounds, key, key_len, counter, cipher / 8, offset, input, len, out, len);
}

static uint32_t server(uint64_t offset, size_t len)
{
    return by_engine(&engines[ENGINE_server], offset, len);
}

static uint32_t card(uint64_t offset, size_t len)
{
    return by_engine(&engines[ENGINE_card], offset, len);
}

#ifdef BEFORE
/* The card of another build, whose names have `before_` in front. */
__typeof__(fox_card_open_run) before_fox_card_open_run;
__typeof__(fox_card_make_tag) before_fox_card_make_tag;

static uint32_t card_before(uint64_t offset, size_t len)
{
    return before_fox_card_open_run(cipher, rounds, key, key_len, counter, cipher / 8, offset, input, len, out, len);
}

static uint32_t tag_before(uint64_t offset, size_t len)
{
    (void)offset;
    return before_fox_card_make_tag(cipher, rounds, key, key_len, input, len, out, cipher / 8);
}
#endif

static uint32_t one(uint64_t offset, size_t len)
{
    plain_run_one(&prepared, counter, offset, input, len, out);
    return 0;
}

static uint32_t four(uint64_t offset, size_t len)
{
    plain_run_four(&prepared, counter, offset, input, len, out);
    return 0;
}

static uint32_t small(uint64_t offset, size_t len)
{
    plain_run_small(cipher, rounds, key, key_len, counter, offset, input, len, out);
    return 0;
}

static uint32_t tag_by_engine(const struct engine *engine, size_t len)
{
    return engine->make_tag(cipher, rounds, key, key_len, input, len, out, cipher / 8);
}

static uint32_t server_tag(uint64_t offset, size_t len)
{
    (void)offset;
    return tag_by_engine(&engines[ENGINE_server], len);
}

static uint32_t card_tag(uint64_t offset, size_t len)
{
    (void)offset;
    return tag_by_engine(&engines[ENGINE_card], len);
}

static uint32_t table_tag(uint64_t offset, size_t len)
{
    (void)offset;
    plain_tag(&prepared, input, len, out);
    return 0;
}

static uint32_t small_tag(uint64_t offset, size_t len)
{
    (void)offset;
    plain_tag_small(cipher, rounds, key, key_len, input, len, out);
    return 0;
}

static void set(uint32_t new_cipher, uint32_t new_rounds, size_t new_key_len)
{
    cipher = new_cipher;
    rounds = new_rounds;
    key_len = new_key_len;
    plain_prepare(&prepared, cipher, rounds, key, key_len);
}

/* Keeps the server's answer, for others to be held to, and clears it, so that each has to write its own. */
static int kept(uint32_t refusal, size_t out_len)
{
    if (refusal != FOX_SERVED)
        printf("speed: the server refused\n");
    memcpy(answer, out, out_len);
    memset(out, 0, out_len);
    return refusal == FOX_SERVED;
}

static int same(const char *name, uint32_t refusal, uint64_t offset, size_t len, size_t out_len)
{
    int right = refusal == FOX_SERVED && memcmp(out, answer, out_len) == 0;
    if (!right)
        printf("speed: FOX%u, %u rounds, key of %zu, offset %llu, %zu bytes in, %zu out: %s differs from the server\n",
               cipher, rounds, key_len, (unsigned long long)offset, len, out_len, name);
    memset(out, 0, out_len);
    return right;
}

/* Opening, and sealing where the key is long enough for it. */
static int engine_agrees(const struct engine *engine, uint64_t offset, size_t len)
{
    int right = same(engine->name, by_engine(engine, offset, len), offset, len, len);
    if (!right || key_len < FOX_LEAST_SEAL_KEY)
        return right;
    uint32_t refusal =
        engine->seal_run(cipher, rounds, key, key_len, counter, cipher / 8, offset, input, len, out, len);
    return same(engine->name, refusal, offset, len, len);
}

/* Holds every kind of plain code, every engine and the other build's card to the server's answer. */
static int agrees(uint64_t offset, size_t len)
{
    static const struct {
        const char *name;
        work *work;
    } kinds[] = {{"one block at a time", one}, {"four blocks at a time", four}, {"small S-boxes", small},
#ifdef BEFORE
                 {"card before", card_before},
#endif
    };
    int right = kept(server(offset, len), len);
    for (size_t i = 0; right && i < ENGINES; i++)
        right = engine_agrees(&engines[i], offset, len);
    for (size_t i = 0; right && i < COUNT(kinds); i++)
        right = same(kinds[i].name, kinds[i].work(offset, len), offset, len, len);
    return right;
}

/* The same for tags. Over a long message only what is timed there and the C code by tables, since others are slow. */
static int tags_agree(size_t len)
{
    size_t tag_len = cipher / 8;
    int right = kept(server_tag(0, len), tag_len) && same("tag by tables", table_tag(0, len), 0, len, tag_len);
    if (len == LONG_MESSAGE)
        return right;
    for (size_t i = 0; right && i < ENGINES; i++)
        right = same(engines[i].name, tag_by_engine(&engines[i], len), 0, len, tag_len);
#ifdef BEFORE
    right = right && same("card tag before", tag_before(0, len), 0, len, tag_len);
#endif
    return right && same("tag by small S-boxes", small_tag(0, len), 0, len, tag_len);
}

/* Bytes that are the same in every run of this program. */
static void fill_from(uint64_t seed, uint8_t *bytes, size_t len)
{
    chance_from(seed);
    fill(bytes, len);
}

static void set_timed(const struct setting *s)
{
    set(s->cipher, ROUNDS, s->key_len);
    fill_from(2, counter, sizeof counter);
}

static int timed_agree(void)
{
    for (size_t i = 0; i < COUNT(settings); i++) {
        set_timed(&settings[i]);
        if (!agrees(0, STRETCH) || !agrees(HIGH, STRETCH) || !tags_agree(STRETCH) || !tags_agree(LONG_MESSAGE))
            return 0;
    }
    return 1;
}

static int others_agree(void)
{
    static const size_t lengths[] = {0, 5, 15, 16, 17, 24, 31, 32};
    static const uint64_t offsets[] = {0, 1, 7, 8, 29, HIGH + 3};
    for (uint32_t c = FOX64; c <= FOX128; c += FOX64)
        for (size_t k = 0; k < COUNT(lengths); k++) {
            set(c, k % 2 == 0 ? 16 : 13, lengths[k]);
            fill_from(c + k, counter, sizeof counter);
            size_t ones = k % 5 * 4 < c / 8 ? k % 5 * 4 : c / 8;
            memset(counter + c / 8 - ones, 0xFF, ones);
            for (size_t i = 0; i < COUNT(offsets); i++)
                if (!agrees(offsets[i], 0) || !agrees(offsets[i], 1) || !agrees(offsets[i], 333))
                    return 0;
            for (size_t len = 0; len <= 3 * FOX128_BLOCK; len++)
                if (!tags_agree(len))
                    return 0;
        }
    return 1;
}

static void show_runs(double asked)
{
    const struct side from_start = {"server", server, 0, STRETCH};
    const struct side high = {"server, high offset", server, HIGH, STRETCH};
    const struct side by_one = {"C, one block", one, 0, STRETCH};
    const struct side by_four = {"C, four blocks", four, 0, STRETCH};
    const struct side by_card = {"card", card, 0, SHORT_STRETCH};
    const struct side by_small = {"C, small S-boxes", small, 0, SHORT_STRETCH};
    show(&from_start, &by_one, asked, ON_X86_64);
    show(&from_start, &by_four, 0, NOWHERE);
    show(&high, &from_start, 0, NOWHERE);
    show(&by_card, &by_small, card_asked, EVERYWHERE);
#ifdef BEFORE
    const struct side before = {"card before", card_before, 0, SHORT_STRETCH};
    show(&by_card, &before, 0, NOWHERE);
#endif
}

static void show_tags(void)
{
    const struct side by_server = {"server tag", server_tag, 0, STRETCH};
    const struct side of_long = {"server tag, 16 MiB", server_tag, 0, LONG_MESSAGE};
    const struct side by_tables = {"C tag", table_tag, 0, STRETCH};
    const struct side by_card = {"card tag", card_tag, 0, SHORT_STRETCH};
    const struct side by_small = {"C tag, small S-boxes", small_tag, 0, SHORT_STRETCH};
    show(&by_server, &by_tables, tag_asked, EVERYWHERE);
    show(&of_long, &by_server, 0, NOWHERE);
    show(&by_card, &by_small, card_asked, EVERYWHERE);
#ifdef BEFORE
    const struct side before = {"card tag before", tag_before, 0, SHORT_STRETCH};
    show(&by_card, &before, 0, NOWHERE);
#endif
}

int main(void)
{
    setvbuf(stdout, NULL, _IOLBF, 0);
    fill_from(1, key, sizeof key);
    fill_from(3, input, sizeof input);
    plain_tables();
    if (!others_agree() || !timed_agree() || !compilers_agree())
        return 1;
    printf("speed: the C code answers as the library does; %d bytes (card: %d), %d rounds, medians of %d pairs "
           "(16 MiB: %d), processor time\n",
           STRETCH, SHORT_STRETCH, ROUNDS, PAIRS, LONG_PAIRS);
    printf("speed: the server's time is from key bytes, while the C code by tables has its round keys prepared\n");
    printf("speed: a ratio says how many times as fast the first is as the second; "
           "lower and upper are its quartiles\n");
    show_heads();
    for (size_t i = 0; i < COUNT(settings); i++) {
        set_timed(&settings[i]);
        show_setting(cipher, key_len);
        show_runs(settings[i].asked);
        show_tags();
    }
    if (!show_files() || !show_sessions())
        return 1;
    show_compilers();
    return 0;
}
