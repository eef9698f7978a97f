/* The groups of cases on the library's run files. */
#ifndef FILE_GROUPS_H
#define FILE_GROUPS_H

/* whole.c: the files of the vectors, told, written, taken up, read and skipped; old files under keys that are too short
 * to seal with, which are not written; files under keys of every length, and by chance. */
void vector_files(void);
void given_old_files(void);
void keys_of_every_length(void);
void chance_files(void);

/* broken.c: files that were cut, whose bytes were changed, or whose lines were. */
void cut_files(void);
void changed_bytes(void);
void changed_lines(void);
void edited_files(void);
void damaged_files(void);

/* limits.c: lengths of keys, numbers of scans, lengths of scans and of files, one below each limit, at it and above. */
void limits(void);

/* order.c: every set of faults at once. */
void refusals(void);

/* places.c: places that calls have handed back, and places that a caller made up. */
void ends(void);
void far_scan(void);
void made_up_places(void);

#endif
