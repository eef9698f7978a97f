/* Groups of cases, each of which counts as one in 'N passed, M failed'. */
#ifndef COMMON_TALLY_H
#define COMMON_TALLY_H

#define LIKE_PRINTF(text, values) __attribute__((format(printf, text, values)))

/* `program` stands before every line that is printed from here on. */
void tally_begin(const char *program);

/* The group's name is a format with its values. */
LIKE_PRINTF(1, 2) void group_begin(const char *name, ...);
void group_end(void);
const char *group_name(void);

/* Counts one case. Answers with 1 where it went wrong and is among the first of its group, so that the caller shows it;
 * the line is begun. */
int case_wrong(int right);

/* All cases of all groups so far. */
long tally_cases(void);

/* Counts one figure, as much as a group, and prints what it is and whether it is right. */
LIKE_PRINTF(2, 3) void figure(int right, const char *what, ...);

/* Prints the sum; answers with the exit status. */
int tally_end(void);

#endif
