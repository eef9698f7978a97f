/* Counts of the right answers, in a list that has each of them once and in order. */
#include "answers.h"

#include <inttypes.h>
#include <stdio.h>
#include <stdlib.h>
#include <string.h>

static struct counted {
    uint32_t answer;
    unsigned long times;
} *list;
static size_t length;

/* The place in the list of the first answer that is not below this one. */
static size_t place_of(uint32_t answer)
{
    size_t i = 0;
    while (i < length && list[i].answer < answer)
        i++;
    return i;
}

void count_answer(uint32_t answer)
{
    size_t i = place_of(answer);
    if (i == length || list[i].answer != answer) {
        list = realloc(list, (length + 1) * sizeof *list);
        if (list == NULL)
            abort();
        memmove(list + i + 1, list + i, (length - i) * sizeof *list);
        list[i] = (struct counted){answer, 0};
        length++;
    }
    list[i].times++;
}

unsigned long times_answered(uint32_t answer)
{
    size_t i = place_of(answer);
    return i < length && list[i].answer == answer ? list[i].times : 0;
}

void show_answers(void)
{
    printf("served %lu times", times_answered(0));
    for (size_t i = 0; i < length; i++)
        if (list[i].answer != 0)
            printf(", refused by %" PRIu32 " %lu times", list[i].answer, list[i].times);
    printf("\n");
}
