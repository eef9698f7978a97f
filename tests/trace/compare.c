/* What is seen of each call, held to what was seen of the first call of its group, one thing after the other. */
#include "tally.h"
#include "trace.h"

#include <inttypes.h>
#include <stdio.h>
#include <stdlib.h>
#include <string.h>

/* An instruction or an access to data, and in which step of the call, each instruction being one. Kind 0 is the end of the
 * call. */
struct seen {
    uint64_t address;
    size_t step;
    unsigned size;
    char kind;
};

/* The first call of the group, and how far the call that is looked at has come in it. */
static struct trail {
    struct seen *first;
    size_t room, length, at;
    int differs;
} trails[SORTS];

/* Of a verb: its calls, how many things the shortest and the longest have of a sort, how many calls differ in that, and
 * where the first of them does. */
static struct found {
    size_t calls, wrong;
    struct of_sort {
        size_t least, most, differ;
        struct seen one, other;
        uint64_t instruction;
        const struct group *group;
        size_t call;
    } of[SORTS];
} found[VERBS];

static const struct engine *engine;
static const struct plan *plan;
static const char *const *names;
static int inside, entered, ended;
static size_t begun, done;
static uint64_t instruction, entry;

void compare_begin(const struct engine *of, const struct plan *by, const char *const what[SORTS])
{
    engine = of;
    plan = by;
    names = what;
}

/* Calls that the plan does not have are held to its last group, and counted. */
static const struct group *group_of(size_t call)
{
    size_t i = call / plan->calls;
    return &plan->groups[i < plan->count ? i : plan->count - 1];
}

static int is_first(void)
{
    return (begun - 1) % plan->calls == 0;
}

static void keep(struct trail *t, struct seen s)
{
    if (t->length == t->room) {
        t->room = t->room == 0 ? 1 << 16 : 2 * t->room;
        t->first = realloc(t->first, t->room * sizeof *t->first);
        if (t->first == NULL)
            abort();
    }
    t->first[t->length++] = s;
}

static void differs(enum sort sort, struct seen one, struct seen other)
{
    struct of_sort *f = &found[group_of(begun - 1)->verb].of[sort];
    if (f->differ++ == 0) {
        f->one = one;
        f->other = other;
        f->instruction = instruction;
        f->group = group_of(begun - 1);
        f->call = (begun - 1) % plan->calls;
    }
    trails[sort].differs = 1;
}

static void take(enum sort sort, struct seen s)
{
    static const struct seen end = {0, 0, 0, 0};
    struct trail *t = &trails[sort];
    if (is_first())
        keep(t, s);
    else if (!t->differs) {
        struct seen f = t->at < t->length ? t->first[t->at] : end;
        if (f.kind != s.kind || f.address != s.address || f.size != s.size || f.step != s.step)
            differs(sort, f, s);
    }
    t->at++;
}

/* The instruction that a call of the engine begins with, which shows that it was made. */
static uint64_t entry_of(enum verb verb)
{
    switch (verb) {
    case SEAL_RUN:
        return (uintptr_t)engine->seal_run;
    case OPEN_RUN:
        return (uintptr_t)engine->open_run;
    case MAKE_TAG:
        return (uintptr_t)engine->make_tag;
    case TEST_TAG:
        return (uintptr_t)engine->test_tag;
    default:
        return verb == OPEN ? (uintptr_t)engine->open : (uintptr_t)engine->seal;
    }
}

static void begin_call(void)
{
    inside = 1;
    entered = 0;
    begun++;
    entry = entry_of(group_of(begun - 1)->verb);
    for (int i = 0; i < SORTS; i++) {
        if (is_first())
            trails[i].length = 0;
        trails[i].at = 0;
        trails[i].differs = 0;
    }
}

static void end_call(void)
{
    struct found *f = &found[group_of(begun - 1)->verb];
    for (int i = 0; i < SORTS; i++) {
        struct trail *t = &trails[i];
        struct of_sort *o = &f->of[i];
        if (!t->differs && t->at < t->length)
            differs(i, t->first[t->at], (struct seen){0, trails[INSTRUCTIONS].at, 0, 0});
        o->least = f->calls == 0 || t->at < o->least ? t->at : o->least;
        o->most = t->at > o->most ? t->at : o->most;
    }
    f->calls++;
    done += (size_t)entered;
    inside = 0;
}

/* A call that begins before the one before it has ended is not counted as done. */
void saw(char kind, uint64_t address, unsigned size)
{
    if (kind == 'I') {
        instruction = address;
        entered |= address == entry;
        if (address == (uintptr_t)mark_before)
            begin_call();
        else if (inside && address == (uintptr_t)mark_after)
            end_call();
        else if (address == (uintptr_t)mark_wrong && begun > 0)
            found[group_of(begun - 1)->verb].wrong++;
        else if (address == (uintptr_t)mark_end)
            ended = 1;
    }
    enum sort sort = kind == 'I' ? INSTRUCTIONS : DATA;
    if (inside && names[sort] != NULL)
        take(sort, (struct seen){address, trails[INSTRUCTIONS].at + (kind == 'I'), size, kind});
}

/* What is asked of a verb's calls: that all of a group are the same in a sort, that some are not, or neither. */
enum asked { SAME, DIFFERENT, EITHER };

static enum asked asked(enum verb verb, enum sort sort)
{
    static const enum asked of_faulty[VERBS][SORTS] = {
        [SEAL] = {DIFFERENT, EITHER},   [OPEN] = {DIFFERENT, EITHER},   [SEAL_RUN] = {SAME, DIFFERENT},
        [OPEN_RUN] = {SAME, DIFFERENT}, [MAKE_TAG] = {SAME, DIFFERENT}, [TEST_TAG] = {DIFFERENT, EITHER},
    };
    static const enum asked of_tables[SORTS] = {EITHER, DIFFERENT};
    if (engine == &faulty)
        return of_faulty[verb][sort];
    return engine == &constant || engine == &engines[ENGINE_card] ? SAME : of_tables[sort];
}

static void show_seen(const struct seen *s)
{
    if (s->kind == 0)
        printf("has ended");
    else
        printf("%s %" PRIx64 " of %u bytes",
               s->kind == 'I' ? "is at" : s->kind == 'L' ? "reads" : s->kind == 'S' ? "writes" : "changes", s->address,
               s->size);
}

static void show_difference(const struct of_sort *o)
{
    const struct group *g = o->group;
    printf("trace: fox_%s_%s, cipher %" PRIu32 ", rounds %" PRIu32 ", key of %zu bytes, data of %zu at %" PRIu64 "%s: ",
           engine->name, verbs[g->verb].name, g->cipher, g->rounds, g->key_len, g->data_len, g->offset,
           g->wrong ? ", wrong tags" : "");
    printf("in step %zu call 1 ", o->one.kind == 0 ? o->other.step : o->one.step);
    show_seen(&o->one);
    printf(", and in step %zu, by the instruction at %" PRIx64 ", call %zu ", o->other.step, o->instruction,
           o->call + 1);
    show_seen(&o->other);
    printf("\n");
}

static void put_words(char *words, size_t room, const struct of_sort *o, const char *what)
{
    size_t end = strlen(words);
    if (o->differ == 0)
        snprintf(words + end, room - end, ", all with the same %s, %zu to %zu", what, o->least, o->most);
    else
        snprintf(words + end, room - end, ", %zu with other %s than the group's first", o->differ, what);
}

static void of_verb(enum verb verb, size_t planned)
{
    const struct found *f = &found[verb];
    int right = ended && f->calls == planned && f->wrong == 0;
    char words[256] = "";
    for (int i = 0; i < SORTS; i++) {
        const struct of_sort *o = &f->of[i];
        enum asked a = asked(verb, i);
        if (names[i] == NULL)
            continue;
        put_words(words, sizeof words, o, names[i]);
        right &= o->least > 0 && (a == EITHER || (a == DIFFERENT) == (o->differ > 0));
        if (a == SAME && o->differ > 0)
            show_difference(o);
    }
    if (f->wrong > 0)
        printf("trace: of the calls that follow %zu did not answer as they should\n", f->wrong);
    figure(right, "fox_%s_%s, %zu calls of %zu%s", engine->name, verbs[verb].name, f->calls, planned, words);
}

void compare_end(void)
{
    size_t planned[VERBS] = {0};
    for (size_t i = 0; i < plan->count; i++)
        planned[plan->groups[i].verb] += plan->calls;
    if (!ended || inside || begun != done || done != plan->count * plan->calls) {
        printf("trace: the trace has %zu calls that begin and %zu that were made and end, to be %zu%s\n", begun, done,
               plan->count * plan->calls, ended ? "" : ", and is cut short");
        ended = 0;
    }
    for (enum verb verb = 0; verb < VERBS; verb++)
        of_verb(verb, planned[verb]);
}
