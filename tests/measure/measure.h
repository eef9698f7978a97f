/* What is measured of the compiled library, each figure counted by the tally. */
#ifndef MEASURE_MEASURE_H
#define MEASURE_MEASURE_H

/* The stack that each call takes, held to what fox.h says: those of the engines, those on sessions, and those on run
 * files. */
void stacks(void);
void session_stacks(void);
void file_stacks(void);

/* The instructions that one more block takes by the server, and those of a run from two counters. */
void instructions(void);

#endif
