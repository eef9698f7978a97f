/* Groups of cases that have a file of their own. */
#ifndef BESIDE_GROUPS_H
#define BESIDE_GROUPS_H

/* Tags, made and tested. */
void tags(void);

/* Counter blocks made from the numbers of runs. */
void made_counters(void);

/* Lengths above a message's limit, and of 4 GiB and more. */
void large_lengths(void);

/* What one engine seals another one opens, and a tag that one makes another one tests. */
void across(void);

#endif
