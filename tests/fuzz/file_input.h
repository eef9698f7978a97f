/* An input of the fuzzer for run files: choices of a byte each, and then a file, or a counter block and the lengths of
 * scans. */
#ifndef FUZZ_FILE_INPUT_H
#define FUZZ_FILE_INPUT_H

/* With TAGGED the tag in the file's last line is made anew; PLACED asks for a scan at a place that no call has handed
 * back, and which the file's first bytes say. */
enum { KIND, CIPHER, ROUNDS, KEY_LEN, OUTPUT, CHOICES };
enum { AS_IT_IS, TAGGED, PLACED, WRITTEN, KINDS };

#endif
