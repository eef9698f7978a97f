/* How often each answer was the right one, so that one sees what was tried. */
#ifndef COMMON_ANSWERS_H
#define COMMON_ANSWERS_H

#include <stdint.h>

/* 0 for what is served, or the number of its refusal, whichever that is. */
void count_answer(uint32_t answer);

unsigned long times_answered(uint32_t answer);

/* Prints all answers that were counted, in order, as the rest of a line. */
void show_answers(void);

#endif
