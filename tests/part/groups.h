/* The groups of cases on parts of a block's rounds. */
#ifndef PART_GROUPS_H
#define PART_GROUPS_H

/* stops.c: a block in two calls, for every round to stop at. */
void two_calls(void);
void two_calls_of_most_rounds(void);

/* in_two.c: both parts by one call, with the state in a room of the caller's. */
void in_two(void);
void in_two_refused(void);

/* cuts.c: one round at a time, and cuts by chance. */
void single_rounds(void);
void cuts(void);

/* interrupted.c: other work between the parts. */
void interrupted(void);

/* processes.c: every part in a process of its own. The first of them is to be begun before any call is made. */
void begin_processes(void);
void other_processes(void);

/* registers.c: the register a step block on and back, past both ends, and from any value. */
void steps_of_rounds(void);
void steps_undone(void);
void any_register(void);

/* numbers.c: registers above 24 bits, rounds past the last, parts of no rounds, and what counts as sealing. */
void high_registers(void);
void no_rounds(void);
void past_rounds(void);
void sealing_numbers(void);
void any_numbers(void);

/* refusals.c: every set of faults at once, limits, and lengths of 4 GiB and more. */
void refusals(void);
void limits(void);
void large_lengths(void);

#endif
