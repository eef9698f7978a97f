/* Cases of calls on run files. */
#include "try.h"
#include "answers.h"
#include "chance.h"
#include "count.h"
#include "faults.h"
#include "rooms.h"
#include "tally.h"

#include <inttypes.h>
#include <stdio.h>
#include <stdlib.h>
#include <string.h>

enum { KEY, COUNTER, DATA, LENGTHS, FILE_ROOM, PLACE, OUTPUT, COUNTED };

static struct room rooms[] = {
    [KEY] = {"key", NULL},        [COUNTER] = {"counter", NULL}, [DATA] = {"data", NULL},
    [LENGTHS] = {"lengths", NULL}, [FILE_ROOM] = {"file", NULL},  [PLACE] = {"place", NULL},
    [OUTPUT] = {"output", NULL},  [COUNTED] = {"count", NULL},
};

/* What the count is before a call. */
static const uint64_t no_count = 0x7766554433221100;

/* What a room of the output has before a call and after it. */
static uint8_t before[MOST_ROOM], after[MOST_ROOM];

struct made {
    enum file_verb verb;
    const struct file_call *call;
    uint64_t answer;
};

static void make(void *given)
{
    struct made *m = given;
    m->answer = make_file_call(m->verb, m->call);
}

uint64_t caught_call(enum file_verb verb, const struct file_call *c)
{
    struct made m = {verb, c, NO_ANSWER};
    return work_faults(make, &m) ? NO_ANSWER : m.answer;
}

/* The call with a copy of each thing that its verb has in a room. */
static struct file_call lay(enum file_verb verb, const struct file_call *c, int at_end)
{
    struct file_call laid = *c;
    unsigned has = file_verbs[verb].has;
    if (has & HAS_KEY)
        laid.key = room_lay(&rooms[KEY], c->key, c->key_len, at_end);
    if (has & HAS_DATA) {
        laid.counter = room_lay(&rooms[COUNTER], c->counter, c->counter_len, at_end);
        laid.data = room_lay(&rooms[DATA], c->data, c->data_len, at_end);
    }
    if (has & HAS_SCANS)
        laid.lengths = (void *)room_lay(&rooms[LENGTHS], c->lengths, c->scans * sizeof *c->lengths, at_end);
    if (has & HAS_FILE)
        laid.file = room_lay(&rooms[FILE_ROOM], c->file, c->file_len, at_end);
    if (has & HAS_PLACE)
        laid.place = (void *)room_lay(&rooms[PLACE], c->place, FOX_PLACE_WORDS * sizeof *c->place, at_end);
    if (has & HAS_OUT)
        laid.out = room_lay(&rooms[OUTPUT], before, c->out_len, at_end);
    if (has & HAS_COUNT)
        laid.count = (void *)room_lay(&rooms[COUNTED], &no_count, sizeof no_count, at_end);
    return laid;
}

/* What was lent for reading is as it was. */
static int lent_kept(enum file_verb verb, const struct file_call *c, int at_end)
{
    unsigned has = file_verbs[verb].has;
    if ((has & HAS_KEY) && !room_holds(&rooms[KEY], c->key, c->key_len, at_end))
        return 0;
    if ((has & HAS_DATA) && !(room_holds(&rooms[COUNTER], c->counter, c->counter_len, at_end) &&
                              room_holds(&rooms[DATA], c->data, c->data_len, at_end)))
        return 0;
    if ((has & HAS_SCANS) && !room_holds(&rooms[LENGTHS], c->lengths, c->scans * sizeof *c->lengths, at_end))
        return 0;
    return !(has & HAS_FILE) || room_holds(&rooms[FILE_ROOM], c->file, c->file_len, at_end);
}

/* Before a call every byte that is to be written is another one than it has to become, and all after them are
 * painted. */
static void paint(const uint8_t *bytes, size_t count, size_t out_len)
{
    for (size_t i = 0; i < out_len; i++) {
        before[i] = i < count ? (uint8_t)~bytes[i] : (uint8_t)(i * 29 + 5);
        after[i] = i < count ? bytes[i] : before[i];
    }
}

/* What is wrong with the call, in words; NULL where nothing is. */
static const char *wrong_call(enum file_verb verb, const struct file_call *c, const struct outcome *right, int at_end)
{
    static char words[192];
    unsigned has = file_verbs[verb].has;
    struct file_call laid = lay(verb, c, at_end);
    uint64_t found = caught_call(verb, &laid);
    if (found == NO_ANSWER)
        snprintf(words, sizeof words, "faults at %p, beside %s", (const void *)fault_place(),
                 room_beside(rooms, COUNT(rooms), fault_place()));
    else if (found != right->answer)
        snprintf(words, sizeof words, "answers %" PRIu64 " and not %" PRIu64, found, right->answer);
    else if ((has & HAS_COUNT) && !room_holds(&rooms[COUNTED], &right->count, sizeof right->count, at_end))
        snprintf(words, sizeof words, "counts %" PRIu64 " and not %" PRIu64, *laid.count, right->count);
    else if ((has & HAS_PLACE) && !room_holds(&rooms[PLACE], right->place, sizeof right->place, at_end))
        snprintf(words, sizeof words, "goes to %" PRIu64 " %" PRIu64 " %" PRIu64 " and not %" PRIu64 " %" PRIu64
                 " %" PRIu64, laid.place[0], laid.place[1], laid.place[2], right->place[0], right->place[1],
                 right->place[2]);
    else if ((has & HAS_OUT) && !room_holds(&rooms[OUTPUT], after, c->out_len, at_end))
        snprintf(words, sizeof words, "puts out other bytes, or writes beside them");
    else if (!lent_kept(verb, c, at_end))
        snprintf(words, sizeof words, "changes what was lent for reading, or a byte beside it");
    else
        return NULL;
    return words;
}

void hold_call(enum file_verb verb, const struct file_call *c, const struct outcome *right, const uint8_t *bytes)
{
    int at_end = (int)below(2);
    if (file_verbs[verb].has & HAS_OUT)
        paint(bytes, right->count, c->out_len);
    if (verb != FILE_NEXT)
        count_answer((uint32_t)right->answer);
    const char *wrong = wrong_call(verb, c, right, at_end);
    if (case_wrong(wrong == NULL)) {
        show_file_call(verb, c);
        printf(": %s, where things %s a page not to be touched\n", wrong, at_end ? "end at" : "begin after");
    }
}

struct outcome try_call(enum file_verb verb, const struct file_call *c)
{
    static uint8_t bytes[MOST_ROOM];
    struct file_call theirs = *c;
    theirs.out = bytes;
    struct outcome right = second_outcome(verb, &theirs);
    hold_call(verb, c, &right, bytes);
    return right;
}

void hold_refused(enum file_verb verb, const struct file_call *c, uint32_t number)
{
    struct outcome right = {number, 0, {UINT64_MAX, 0, 0}};
    if ((file_verbs[verb].has & HAS_PLACE) && verb != FILE_TAKE_UP)
        memcpy(right.place, c->place, sizeof right.place);
    hold_call(verb, c, &right, NULL);
}
