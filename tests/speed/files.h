/* The speed of run files. */
#ifndef SPEED_FILES_H
#define SPEED_FILES_H

/* Shows it, beside the library's own runs and tags. Answers with 0 where a call refuses, and nothing is measured. */
int show_files(void);

#endif
