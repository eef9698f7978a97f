/* The groups of cases on the library's sessions. */
#ifndef SESSION_GROUPS_H
#define SESSION_GROUPS_H

/* starts.c: keys of every length, every number of rounds, and starts over used words. */
void starts(void);

/* lists.c: calls by chance, one after the other, on two sessions of which one becomes a copy of the other now and
 * then. */
void lists(void);

/* edges.c: advances and moves from every byte of a block, the run's end, and what is carried in the counter. */
void advances_at_edges(void);
void moves_at_edges(void);
void run_end(void);
void carries(void);

/* whole.c: long stretches, in pieces and in one, sealed and opened again, and copies that go ways of their own. */
void long_advances(void);
void whole_run(void);
void copies(void);

/* refusals.c: every set of faults at once, in both directions, calls on what was not started, and lengths of 4 GiB and
 * more. */
void refused_starts(void);
void refused_calls(void);
void large_lengths(void);

/* filled.c: words that no start has filled, and the direction that a start has put into them. */
void filled_words(void);
void filled_faults(void);
void directions(void);

#endif
