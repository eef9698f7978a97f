/* The C variants by every compiler that is tried: held to the server's answers, told in a table, and the fastest of
 * each compiler in pairs with the server. COMPILERS has the compilers' names, as in COMPILER(kit) COMPILER(gcc). The
 * one that makes the library is called kit. */
#include "compilers.h"
#include "chance.h"
#include "count.h"
#include "fox.h"
#include "pairs.h"
#include "variants.h"

#include <stdio.h>
#include <string.h>

enum { ROUNDS = 16, KEY_LEN = 16, STRETCH = FOX_MOST_DATA, HIGH = FOX_RUN_END - STRETCH, TRIES = 16 };

/* What is asked of the server beside the fastest code by the compiler that makes the library, in runs and in tags. */
static const double asked = 0.95;

#define COMPILER(name) extern const struct variants variants_##name;
COMPILERS
#undef COMPILER

#define COMPILER(name) &variants_##name,
static const struct variants *const compilers[] = {COMPILERS};
#undef COMPILER

/* All that is tried: runs of so many blocks side by side and, where `blocks` is 0, tags; with the most MB/s so far. */
enum { OF_KIND = MOST_BLOCKS + 1 };
static struct tried {
    const struct variants *by;
    const struct kind *kind;
    size_t blocks;
    double rate;
} all[COUNT(compilers) * KINDS * OF_KIND];

static uint8_t key[KEY_LEN], counter[FOX128_BLOCK], data[STRETCH], out[STRETCH];
static uint32_t cipher, rounds;
static struct plain_key prepared;
static const struct tried *chosen;

static uint32_t server(uint64_t offset, size_t len)
{
    return fox_server_open_run(cipher, rounds, key, KEY_LEN, counter, cipher / 8, offset, data, len, out, len);
}

static uint32_t server_tag(uint64_t offset, size_t len)
{
    (void)offset;
    return fox_server_make_tag(cipher, rounds, key, KEY_LEN, data, len, out, cipher / 8);
}

static uint32_t run_chosen(uint64_t offset, size_t len)
{
    chosen->kind->runs[chosen->blocks - 1](&prepared, counter, offset, data, len, out);
    return FOX_SERVED;
}

static uint32_t tag_chosen(uint64_t offset, size_t len)
{
    (void)offset;
    chosen->kind->tag(&prepared, data, len, out);
    return FOX_SERVED;
}

static const struct side by_server = {"server", server, 0, STRETCH};
static const struct side tag_by_server = {"server tag", server_tag, 0, STRETCH};

static struct side side_of(const struct tried *t, const char *name)
{
    return (struct side){name, t->blocks > 0 ? run_chosen : tag_chosen, 0, STRETCH};
}

static void set(uint32_t new_cipher, uint32_t new_rounds)
{
    cipher = new_cipher;
    rounds = new_rounds;
    plain_prepare(&prepared, cipher, rounds, key, KEY_LEN);
}

static void set_timed(uint32_t new_cipher)
{
    set(new_cipher, ROUNDS);
    chance_from(7);
    fill(counter, sizeof counter);
}

static void begin(void)
{
    chance_from(6);
    fill(key, sizeof key);
    fill(data, sizeof data);
    for (size_t i = 0; i < COUNT(compilers); i++)
        compilers[i]->make_tables();
    for (size_t i = 0; i < COUNT(all); i++) {
        const struct variants *by = compilers[i / OF_KIND / KINDS];
        all[i] = (struct tried){by, &by->kinds[i / OF_KIND % KINDS], (i + 1) % OF_KIND, 0};
    }
}

/* Agreement. */

static int differs(uint64_t offset, size_t len)
{
    printf("speed: FOX%u, %u rounds, offset %llu, %zu bytes: C by %s, %s, ", (unsigned)cipher, (unsigned)rounds,
           (unsigned long long)offset, len, chosen->by->by, chosen->kind->second);
    if (chosen->blocks > 0)
        printf("%zu side by side, ", chosen->blocks);
    else
        printf("in a tag, ");
    printf("differs from the server\n");
    return 0;
}

/* Has it write into a cleared buffer, all of which is then compared, so that nothing more may be written either. */
static uint32_t written(work *call, uint64_t offset, size_t len)
{
    memset(out, 0, sizeof out);
    return call(offset, len);
}

/* Keeps the server's answer, for others to be held to. */
static int kept(work *call, uint64_t offset, size_t len, uint8_t *answer)
{
    uint32_t refusal = written(call, offset, len);
    if (refusal != FOX_SERVED)
        printf("speed: the server refused\n");
    memcpy(answer, out, sizeof out);
    return refusal == FOX_SERVED;
}

/* Holds all of this cipher to the server's answers, a run's and a tag's. */
static int agree_at(uint64_t offset, size_t len)
{
    static uint8_t run[STRETCH], tag[STRETCH];
    if (!kept(server, offset, len, run) || !kept(server_tag, offset, len, tag))
        return 0;
    for (chosen = all; chosen < all + COUNT(all); chosen++) {
        if (chosen->kind->cipher != cipher)
            continue;
        written(side_of(chosen, "").work, offset, len);
        if (memcmp(out, chosen->blocks > 0 ? run : tag, sizeof out) != 0)
            return differs(offset, len);
    }
    return 1;
}

/* A counter by chance whose last bytes are nearly as high as can be, so that it carries over them in one of the first
 * blocks, each time in another. */
static void counter_of(size_t time)
{
    const size_t block = cipher / 8, ones = 4 * time < block ? 4 * time : block;
    fill(counter, sizeof counter);
    memset(counter + block - ones, 0xFF, ones);
    counter[block - 1] = (uint8_t)(counter[block - 1] - time);
}

static int shapes_agree(void)
{
    static const uint64_t offsets[] = {0, 1, 7, 8, 29, HIGH + 3};
    static const size_t lengths[] = {0, 1, 8, 16, 80, 333};
    for (size_t i = 0; i < COUNT(offsets); i++)
        for (size_t j = 0; j < COUNT(lengths); j++)
            if (!agree_at(offsets[i], lengths[j]))
                return 0;
    return 1;
}

int compilers_agree(void)
{
    begin();
    for (uint32_t c = FOX64; c <= FOX128; c += FOX64) {
        for (size_t time = 0; time < 5; time++) {
            set(c, time % 2 == 0 ? ROUNDS : ROUNDS - 3);
            counter_of(time);
            if (!shapes_agree())
                return 0;
        }
        set_timed(c);
        if (!agree_at(0, STRETCH) || !agree_at(HIGH, STRETCH))
            return 0;
    }
    return 1;
}

/* Speed. Each try goes over all, so that what slows the machine for a while slows one try of each. */

static struct served {
    uint32_t cipher;
    double run, tag;
} served[] = {{FOX64, 0, 0}, {FOX128, 0, 0}};

static void keep_more(double *most, const struct side *s)
{
    double rate = rate_of(s);
    if (rate > *most)
        *most = rate;
}

static void try_all(struct served *of)
{
    set_timed(of->cipher);
    keep_more(&of->run, &by_server);
    keep_more(&of->tag, &tag_by_server);
    for (size_t i = 0; i < COUNT(all); i++)
        if (all[i].kind->cipher == cipher) {
            const struct side s = side_of(&all[i], "");
            chosen = &all[i];
            keep_more(&all[i].rate, &s);
        }
}

static void show_rates(const struct served *of)
{
    printf("speed: FOX%u by the server, from key bytes: %.1f in a run, %.1f in a tag\n", (unsigned)of->cipher, of->run,
           of->tag);
    for (const struct tried *t = all; t < all + COUNT(all); t++) {
        if (t->kind->cipher != of->cipher)
            continue;
        if (t->blocks == 1)
            printf("FOX%-4u  %-6s  %-14s  %-20s", (unsigned)of->cipher, t->by->by, t->by->compiler, t->kind->second);
        printf("  %6.1f%s", t->rate, t->blocks == 0 ? "\n" : "");
    }
}

static void show_all(void)
{
    for (int i = 0; i < TRIES; i++)
        for (size_t k = 0; k < COUNT(served); k++)
            try_all(&served[k]);
    printf("speed: C by tables, MB/s, the most of %d tries: one to five blocks of a run side by side, and a tag\n",
           TRIES);
    printf("%-7s  %-6s  %-14s  %-20s  %6d  %6d  %6d  %6d  %6d  %6s\n", "cipher", "by", "compiler",
           "second substitution", 1, 2, 3, 4, 5, "tag");
    for (size_t k = 0; k < COUNT(served); k++)
        show_rates(&served[k]);
}

/* The fastest by this compiler, of runs or of tags. */
static const struct tried *fastest(const struct variants *by, int tag)
{
    const struct tried *best = NULL;
    for (const struct tried *t = all; t < all + COUNT(all); t++)
        if (t->by == by && t->kind->cipher == cipher && (t->blocks == 0) == tag && (!best || t->rate > best->rate))
            best = t;
    return best;
}

static void show_fastest(const struct variants *by)
{
    const enum where where = strcmp(by->by, "kit") == 0 ? EVERYWHERE : NOWHERE;
    char name[40];
    chosen = fastest(by, 0);
    snprintf(name, sizeof name, "C by %s, %zu blocks, %s", by->by, chosen->blocks, chosen->kind->second);
    struct side s = side_of(chosen, name);
    show(&by_server, &s, asked, where);
    chosen = fastest(by, 1);
    snprintf(name, sizeof name, "C tag by %s, %s", by->by, chosen->kind->second);
    s = side_of(chosen, name);
    show(&tag_by_server, &s, asked, where);
}

void show_compilers(void)
{
    show_all();
    printf("speed: the server beside the fastest by each compiler; kit is the one that makes the library\n");
    show_heads();
    for (size_t k = 0; k < COUNT(served); k++) {
        set_timed(served[k].cipher);
        show_setting(cipher, KEY_LEN);
        for (size_t i = 0; i < COUNT(compilers); i++)
            show_fastest(compilers[i]);
    }
}
