/* An input of the fuzzer for sessions: the setting of a start, in six bytes, of which the first says the direction, and
 * then calls, each a byte that says which, and two more for an advance, a move or a poke, one more to shorten, or a
 * setting for a start. Choices from ODD on are those that are refused most often. */
#ifndef FUZZ_SESSION_INPUT_H
#define FUZZ_SESSION_INPUT_H

enum { ODD = 244 };

/* KEEP copies the session, and GO_BACK takes the copy in its place. SHORTEN puts a key length into its words that is
 * too short to seal with, which shows the direction that they say: up to the next start a session for sealing is
 * refused, and one for opening goes on. POKE changes one of its words, after which, up to the next start, only what
 * holds of words that a caller filled is looked at. */
enum { CALL_ADVANCE, CALL_MOVE, CALL_ADVANCE_TOO, CALL_KEEP, CALL_GO_BACK, CALL_START, CALL_POKE, CALL_SHORTEN, CALLS };

#endif
