/* The speed of sessions. */
#ifndef SPEED_SESSIONS_H
#define SPEED_SESSIONS_H

/* Shows it, beside the library's own runs. Answers with 0 where a call refuses, and nothing is measured. */
int show_sessions(void);

#endif
