/* FOX64 and FOX128 for the station's C programs: one block sealed or opened, any stretch of a run in CTR
 * mode, a session on a run that is sealed or opened a few bytes at a time, the tag of a message made and tested,
 * and run files written and read. Link with libfox.a or libfox.so. libfox_card.a has all but the calls named
 * fox_server_, fox_session_ and fox_file_, in less than a tenth of the code. C99 and C++.
 *
 * To seal safely:
 *
 * - Take a key of 16 random bytes or more: every call that seals refuses a shorter one (13). Calls that open, and
 *   those on tags, take keys of 0 to 32 bytes, so that what was sealed under a short one can be opened. A short
 *   key is found by trying them all, one of 4 bytes within a day on one machine: open what was sealed under it,
 *   and seal it anew. Zeros after a short key, or the same bytes again, make another key of it, that is found as
 *   soon.
 * - Take 16 rounds or more. Fewer are served, down to 12, so that what was sealed with them can be opened.
 * - Give each run under one key another value in the bytes before the last four, and set the last four to
 *   zero: fox_counter makes such a counter block from a number that you give the run. Two runs that share a
 *   counter block can be read from one another, without the key. FOX64 has only four bytes before the last
 *   four, so 4,294,967,296 runs under one key; FOX128 has twelve, of which fox_counter uses four. A run that is
 *   sealed again with other data, or a stretch of it that is, is another run; cards that share a key share its
 *   numbers.
 * - With FOX64 seal no more than 1 GiB under one key, all runs together and the last block of each counted
 *   whole; run files, which are tagged under that key too, count twice. Its blocks are small, so the odds that
 *   the sealed runs tell something of their data grow fast, with the square of their length: at most 1 in 2,000
 *   at 1 GiB, 1 in 32 at 8 GiB, 1 in 2 at 32 GiB. With FOX128 1 in 2,000 comes at 8,589,934,592 GiB.
 * - Keep cipher, rounds and counter block, or its number, with the sealed run: they are no secret, and without
 *   them it cannot be opened.
 * - Tag what was sealed, and test the tag before opening it (fox_card_make_tag and the calls after it), or put
 *   it into a run file, which has its tag in it (fox_file_write and the calls after it).
 * - Wipe keys, and sessions, which have round keys in them, when they are done with (fox_wipe, fox_wipe_stack).
 *
 * The users' words, and what the field says:
 *
 *   seal, open     encrypt, decrypt
 *   block          as many bytes as the cipher takes at once: 8 for FOX64, 16 for FOX128
 *   run            data in CTR mode, its bytes counted from 0
 *   stretch        consecutive bytes of a run, from any offset on
 *   counter block  CTR's initial counter block; the run's later blocks take the counter blocks after it
 *   key stream     the encrypted counter blocks, one after the other, with which the run is XORed
 *   session        a run that is kept at work, for sealing or for opening: key, counter block, position and block
 *                  in use, kept from call to call in words that the caller lends
 *   position       where a session stands: the offset of the byte that comes next
 *   block in use   the sealed counter block that a session's position is in; bytes inside it are XORed with it,
 *                  and nothing is sealed for them
 *   message        the bytes that a tag is made over, such as the sealed bytes of a run
 *   tag            the CMAC of a message (NIST SP 800-38B), as long as the block: whoever has the key sees by
 *                  it whether the message was changed
 *   scan           a part of a run, 0 to 65,536 bytes, as the station recorded them together
 *   run file       a run as a file, scan after scan, with its cipher, rounds, counter block and tag
 *   place          where the next scan of a run file stands, once it was taken up
 *   engine         an implementation: card, with little memory, and server, with much
 *   prepared key   the expanded key, which is all round keys; the server engine makes it in each call, and a
 *                  session keeps it
 *   refusal        an error number from 1 on; 0 is success
 *   count          the number of bytes written, which the answer tells: the output's length for a call that
 *                  answers 0, and 0 for any other; a test of a tag, and a start or a move of a session, has no
 *                  output, and count 0 always. Calls on run files put it where they are told to: the length of
 *                  the file that was written, or of the scan that was read, and 0 where no scan was left;
 *                  fox_file_size writes no file, and puts there how long it would be
 *
 * The card engine (fox_card_...) and the server engine (fox_server_...) do the same work: they give the
 * same answer and the same bytes for the same parameters, so what one seals the other opens, and a tag that
 * one makes the other tests. The card engine keeps no list of round keys and no large table, and is slow.
 * The server engine expands the key and makes its tables once in a call, and is fast on many blocks; for one
 * block these preparations are most of the work. A session (fox_session_...) works by the server engine, and
 * gives the same bytes too: it expands the key once, when it is started, and after that makes tables only in an
 * advance that takes in a whole block beyond the block in use.
 *
 * Sealing takes a key of 16 bytes or more: a block or a stretch of a run that is to be sealed, the start of a
 * session for sealing, and a run file that is to be written are refused with 13 under a shorter one. But for that
 * a call that seals and the one that opens are refused alike.
 *
 * Every call of an engine or on a session, fox_counter, and every call on a run file that gives a count or takes
 * a file up, answers FOX_SERVED, which is 0, or the number of the first refusal below that applies, in the order
 * of the list. Order for sessions: fox_session_start_sealing 1, 2, 3, 13, 4; fox_session_start_opening 1, 2, 3,
 * 4; fox_session_advance 1, 2, 3, 13, 5, 6, 7; fox_session_move 1, 2, 3, 13, 7, where 1, 2, 3 and 13 are for
 * words that no served start has filled, and are 1 after a refused one. For run files: fox_file_size 1, 2, 12;
 * fox_file_write 1, 2, 3, 13, 4, 12, 6; fox_file_take_up 1, 2, 3, 11, 12, 10; fox_file_read 1, 2, 3, 4, 6, 7, but
 * where no scan is left it answers 0 and looks at nothing else, so that even a wrong cipher is not refused there.
 * A served call has written all of `out`, or of the `tag` or `counter` that it makes; but fox_file_write only as
 * much of `out` as it counts, and fox_file_read nothing where no scan is left. A refused call has written
 * nothing, but for a count of 0, a place where no scan is left, or the zeros of a session that was not started.
 * fox_refusal_text has a sentence for each number.
 *
 *    1  FOX_REFUSED_CIPHER      cipher is neither 64 nor 128; or the start of this session was refused
 *    2  FOX_REFUSED_ROUNDS      rounds is below 12 or above 255 (not fox_counter)
 *    3  FOX_REFUSED_KEY         key_len is above 32 (not fox_counter and fox_file_size, which have no key)
 *   13  FOX_REFUSED_SHORT_KEY   key_len is below 16, and the call seals (fox_card_seal_block,
 *                               fox_server_seal_block, fox_card_seal_run, fox_server_seal_run,
 *                               fox_session_start_sealing and fox_file_write; no call that opens, reads, or makes
 *                               or tests a tag)
 *    4  FOX_REFUSED_BLOCK       block_len, or counter_len, is not the cipher's block: 8 for FOX64, 16 for
 *                               FOX128 (blocks, runs, fox_counter, the starts of a session, and
 *                               fox_file_write); or no counter block stands where a header of this cipher and
 *                               these rounds would have it (fox_file_read with other settings than at take-up)
 *    5  FOX_REFUSED_DATA        a run's data_len, or an advance's input_len, is above 65,536, or message_len is
 *                               above 1,073,741,824
 *    6  FOX_REFUSED_OUTPUT      out_len is not block_len, data_len or input_len; for a tag that is made, tag_len
 *                               is not the cipher's block; out_len is below the length of the file that is to be
 *                               written, or is not that of the scan that is to be read
 *    7  FOX_REFUSED_END         offset + data_len, or the session's position + input_len, as a sum that does not
 *                               wrap, is above 1,073,741,824, or the position that a session is to move to is
 *                               (runs and sessions; fox_file_read at a place that take-up, reading and skipping
 *                               did not give)
 *    8  FOX_REFUSED_SHEET       the bench program's sheet is malformed; no call here answers it
 *    9  FOX_REFUSED_TAG_LENGTH  for a tag that is tested, tag_len is not the cipher's block
 *   10  FOX_REFUSED_TAG         the tag that is tested is not that of the message; the tag in the file that is
 *                               taken up is not that of the file
 *   11  FOX_REFUSED_HEADER      the header of the file that is taken up is broken, or it is not that of this
 *                               cipher and these rounds
 *   12  FOX_REFUSED_FILE        after its header the file that is taken up is broken, or cut short; it has, or
 *                               would have, more than 65,535 scans, a scan of more than 65,536 bytes, or more
 *                               than 1,073,741,824 bytes before the line `close`; the lengths of the scans
 *                               that are to be written do not add up to data_len, as a sum that does not wrap
 *
 * A program that was written for version 0.4 or before takes
 *
 *   for fox_card_run       fox_card_seal_run where plain data goes in, fox_card_open_run where sealed data does
 *   for fox_server_run     fox_server_seal_run, or fox_server_open_run, in the same way
 *   for fox_session_start  fox_session_start_sealing, or fox_session_start_opening, by what the session is for
 *
 * with the same parameters, and gets the same bytes. It is to be compiled anew, since the words of a session are
 * one more, and linked anew, since the shared library's soname is another. Where a call answers 13 the program
 * wants a longer key for what it seals; a call that opens is no way around it.
 *
 * What a caller has to see to, since nothing checks it:
 *
 * - What goes into a call that opens a run, or into a session for opening, is sealed. Sealing and opening a run
 *   are one XOR, so that no call can tell plain bytes from sealed ones: plain ones would come out sealed, under a
 *   short key too.
 * - Each pointer has as many bytes behind it as its length says, with any alignment; `lengths` has as many
 *   numbers behind it as there are scans, `place` three, `session` FOX_SESSION_WORDS and `count` one, all
 *   aligned as a uint64_t is. This holds for refused calls too.
 * - No pointer is NULL, not even with a length of 0: the proofs are about references, and those are never
 *   NULL. With a length of 0 nothing is read or written there, so any other address will do, such as that
 *   of any variable; malloc(0) will not, since it may answer NULL.
 * - `out` overlaps none of key, block, counter, data, input, lengths and file, so nothing is sealed in place; a
 *   `tag` that is made overlaps neither key nor message. `count`, `session`, and a `place` that is set or moved
 *   on, overlap nothing else that the call is lent. All others, a tag that is tested among them, are only read,
 *   and may overlap one another.
 * - While a call runs, no other thread writes to what it reads, and none reads or writes its `out`, its
 *   `count`, its `session`, the `place` that it sets or moves on, or the `tag` that it makes. So let each
 *   session be one thread's, or hold a lock around every call on it.
 *
 * The calls keep no state but in a `place` or `session` that they are lent, allocate nothing and make no system
 * calls, so several threads may call at once. Of the C library they use memcpy and memset alone; those in
 * libfox_card.a use memset alone, to wipe. A call by the card engine takes less than FOX_CARD_STACK bytes of
 * stack, which is 1 KiB. A call by the server engine has its tables and round keys there, and takes less than
 * FOX_SERVER_STACK, which is 40 KiB. So does a call on a session or on a run file, which does its work by that
 * engine.
 *
 * Left out: protection against timing measurement; nothing of it is promised. What is measured, of the code
 * that the tests run on: calls by the card engine with the same cipher, rounds, lengths, offset and counter
 * block take the same instructions, and read and write at the same addresses, for all keys, blocks, data and
 * messages that are tried; a test of a tag does so for all right tags, and for all wrong ones. Addresses are
 * seen only for the machine's own processor, and where valgrind is. How long an instruction takes is not
 * looked at. The server engine, and so sessions and run files, reads its tables at places that depend on key and
 * data bytes.
 *
 * Opening does not detect a wrong key, counter block or round count, or sealed bytes that were changed: it
 * then gives other bytes. That sealed bytes were changed, a tag over them tells, where one was made and is
 * tested before opening, as is done when a run file is taken up. And no call wipes what it leaves behind: the
 * server engine's round keys, and the card engine's key and mixed key, stay in the stack below the caller until
 * something else is written there; fox_wipe_stack wipes them. A session's words have round keys in them as long
 * as it lasts; fox_wipe wipes those. What stays even then is named there. */
#ifndef FOX_H
#define FOX_H

#include <stddef.h>
#include <stdint.h>

#define FOX_VERSION "0.5.0"

/* What the compiler is told of the calls, where it knows the words: that no pointer is NULL, that the answer is to
 * be looked at, and which parameter is the length of what is read or written. */
#if defined(__has_attribute)
#if __has_attribute(nonnull)
#define FOX_NONNULL __attribute__((nonnull))
#endif
#if __has_attribute(warn_unused_result)
#define FOX_ANSWERS __attribute__((warn_unused_result))
#endif
#if __has_attribute(access)
#define FOX_READS(pointer, length) __attribute__((access(read_only, pointer, length)))
#define FOX_WRITES(pointer, length) __attribute__((access(write_only, pointer, length)))
#define FOX_WRITES_ONE(pointer) __attribute__((access(write_only, pointer)))
#endif
#endif
#ifndef FOX_NONNULL
#define FOX_NONNULL
#endif
#ifndef FOX_ANSWERS
#define FOX_ANSWERS
#endif
#ifndef FOX_READS
#define FOX_READS(pointer, length)
#define FOX_WRITES(pointer, length)
#define FOX_WRITES_ONE(pointer)
#endif
#define FOX_ON_BLOCK FOX_NONNULL FOX_ANSWERS FOX_READS(3, 4) FOX_READS(5, 6) FOX_WRITES(7, 8)
#define FOX_ON_RUN FOX_NONNULL FOX_ANSWERS FOX_READS(3, 4) FOX_READS(5, 6) FOX_READS(8, 9) FOX_WRITES(10, 11)
#define FOX_ON_STORED_TAG FOX_NONNULL FOX_ANSWERS FOX_READS(3, 4) FOX_READS(5, 6) FOX_READS(7, 8)

#ifdef __cplusplus
extern "C" {
#endif

enum {
    FOX64 = 64,
    FOX128 = 128,
    FOX64_BLOCK = 8,
    FOX128_BLOCK = 16,
    FOX_LEAST_ROUNDS = 12,
    FOX_MOST_ROUNDS = 255,
    FOX_LEAST_SEAL_KEY = 16,
    FOX_MOST_KEY = 32,
    FOX_MOST_DATA = 65536,
    FOX_RUN_END = 1073741824,
    FOX_MOST_MESSAGE = 1073741824,
    FOX_MOST_SCANS = 65535,
    FOX_MOST_SCAN = 65536,
    FOX_MOST_FILE = 1073741824, /* before the line `close` */
    FOX_PLACE_WORDS = 3,
    FOX_SESSION_WORDS = 519,
    FOX_CARD_STACK = 1024,
    FOX_SERVER_STACK = 40960
};

enum {
    FOX_SERVED = 0,
    FOX_REFUSED_CIPHER = 1,
    FOX_REFUSED_ROUNDS = 2,
    FOX_REFUSED_KEY = 3,
    FOX_REFUSED_BLOCK = 4,
    FOX_REFUSED_DATA = 5,
    FOX_REFUSED_OUTPUT = 6,
    FOX_REFUSED_END = 7,
    FOX_REFUSED_SHEET = 8,
    FOX_REFUSED_TAG_LENGTH = 9,
    FOX_REFUSED_TAG = 10,
    FOX_REFUSED_HEADER = 11,
    FOX_REFUSED_FILE = 12,
    FOX_REFUSED_SHORT_KEY = 13
};

/* What fox_file_next_length tells where no scan follows: a number of 64 bits, so keep it in a uint64_t. */
#define FOX_NO_SCAN UINT64_MAX

/* One block, sealed or opened. With the same cipher, rounds and key either undoes the other.
 *
 * cipher            FOX64 or FOX128
 * rounds            12 to 255
 * key, key_len      16 to 32 bytes to seal, 0 to 32 to open; a key of 0 bytes is a key like any other
 * block, block_len  8 bytes for FOX64, 16 for FOX128
 * out, out_len      as long as the block */
uint32_t fox_card_seal_block(uint32_t cipher, uint32_t rounds, const uint8_t *key, size_t key_len,
                             const uint8_t *block, size_t block_len, uint8_t *out, size_t out_len)
    FOX_ON_BLOCK;
uint32_t fox_card_open_block(uint32_t cipher, uint32_t rounds, const uint8_t *key, size_t key_len,
                             const uint8_t *block, size_t block_len, uint8_t *out, size_t out_len)
    FOX_ON_BLOCK;
uint32_t fox_server_seal_block(uint32_t cipher, uint32_t rounds, const uint8_t *key, size_t key_len,
                               const uint8_t *block, size_t block_len, uint8_t *out, size_t out_len)
    FOX_ON_BLOCK;
uint32_t fox_server_open_block(uint32_t cipher, uint32_t rounds, const uint8_t *key, size_t key_len,
                               const uint8_t *block, size_t block_len, uint8_t *out, size_t out_len)
    FOX_ON_BLOCK;

/* A stretch of a run, sealed or opened. Both XOR the data with the key stream, and give the same bytes for the
 * same parameters; a call says which of the two it is for, since a short key may open and not seal. A run may be
 * cut into calls anywhere, and any stretch of it can be opened alone: only the offset matters, not what was done
 * before.
 *
 * cipher, rounds, key, key_len  as for a block: 16 to 32 bytes of key to seal, 0 to 32 to open
 * counter, counter_len          the counter block that the whole run begins with, whatever the offset: 8
 *                               bytes for FOX64, 16 for FOX128. It is one big-endian number, which counts up
 *                               by one with each block of the run, over its full width; after all ones comes
 *                               zero. No counter block may occur in two runs under one key, or anyone with
 *                               both sealed runs can XOR them and gets the XOR of the two plain texts. So
 *                               give each run under one key another value in the bytes before the last four,
 *                               and set the last four to zero, as fox_counter does: then no run counts on
 *                               into the bytes before them, as one does that begins near FF FF FF FF there
 * offset                        the place in the run of the first byte of the data, counted from 0
 * data, data_len                0 to 65,536 bytes; offset + data_len is at most 1,073,741,824, and a length
 *                               of 0 is served at that very offset too
 * out, out_len                  as long as the data */
uint32_t fox_card_seal_run(uint32_t cipher, uint32_t rounds, const uint8_t *key, size_t key_len,
                           const uint8_t *counter, size_t counter_len, uint64_t offset,
                           const uint8_t *data, size_t data_len, uint8_t *out, size_t out_len)
    FOX_ON_RUN;
uint32_t fox_card_open_run(uint32_t cipher, uint32_t rounds, const uint8_t *key, size_t key_len,
                           const uint8_t *counter, size_t counter_len, uint64_t offset,
                           const uint8_t *data, size_t data_len, uint8_t *out, size_t out_len)
    FOX_ON_RUN;
uint32_t fox_server_seal_run(uint32_t cipher, uint32_t rounds, const uint8_t *key, size_t key_len,
                             const uint8_t *counter, size_t counter_len, uint64_t offset,
                             const uint8_t *data, size_t data_len, uint8_t *out, size_t out_len)
    FOX_ON_RUN;
uint32_t fox_server_open_run(uint32_t cipher, uint32_t rounds, const uint8_t *key, size_t key_len,
                             const uint8_t *counter, size_t counter_len, uint64_t offset,
                             const uint8_t *data, size_t data_len, uint8_t *out, size_t out_len)
    FOX_ON_RUN;

/* A session: a run that is kept at work, and sealed or opened a few bytes at a time, as a live display does it. It
 * keeps the prepared key, the counter block that the run begins with, the position, the block in use, and whether
 * it is for sealing or for opening, in FOX_SESSION_WORDS words that the caller lends. Bytes inside the block in
 * use are XORed with it, and nothing is sealed for them; whole blocks beyond it go as in a run of the server
 * engine, the key being prepared, and the bytes after those by the next block in use. Answers and bytes are those
 * of fox_server_seal_run, or of fox_server_open_run, with the position as the offset, whatever calls came before.
 *
 * fox_session_start_sealing and fox_session_start_opening set the words to a session at position 0, whatever they
 * were. The refusals are 1, 2, 3 and 4, with 13 before 4 where it is for sealing. With any of them all words are
 * set to zero, so that every other call on them is refused with 1. A session is started for one of the two since
 * an advance is given no key, and XORs alike to seal and to open: the start sees to it that the key is long enough
 * to seal with, where that is what the session is for. A display of what was sealed elsewhere is for opening, and
 * takes every key; a recorder that seals what it takes in is for sealing.
 *
 * fox_session_advance seals or opens the next bytes, as the session was started for, as many as the input has, and
 * moves the position on by their number. The refusals are 5, 6 and 7.
 *
 * fox_session_move sets the position, forwards or back. The refusal is 7, for a position above 1,073,741,824. That
 * one itself, the end of the longest run, can be moved to; only advances of 0 bytes are served there.
 *
 * A refused advance or move changes nothing, neither the words nor the output, and the session can go on. For
 * another key or counter block, or to open where it seals, start another session, over the same words if you like.
 *
 *   uint64_t session[FOX_SESSION_WORDS];
 *   uint32_t refusal = fox_session_start_opening(cipher, rounds, key, key_len, counter, counter_len, session);
 *   while (refusal == FOX_SERVED && (length = next_bytes(input)) > 0) {
 *       refusal = fox_session_advance(session, input, length, out, length);
 *       if (refusal == FOX_SERVED)
 *           show(out, length);
 *   }
 *   fox_wipe(session, sizeof session);
 *   fox_wipe_stack();
 *
 * Where a session has sealed, neither it nor a copy of it is to seal other data: whoever has both sealed stretches
 * can XOR them, and gets the XOR of the two plain texts.
 *
 * The words are as secret as the key: they have all round keys in them, and some of the key stream. Wipe them, and
 * every copy of them, when the session is done with: fox_wipe(session, sizeof session) where `session` is the array
 * itself, and FOX_SESSION_WORDS * sizeof *session as the length where it is a pointer. What the calls leave in the
 * stack fox_wipe_stack wipes.
 *
 * cipher, rounds, key, key_len  as for a block: 16 to 32 bytes of key for sealing, 0 to 32 for opening. The key is
 *                               not needed after the start
 * counter, counter_len          the counter block that the run begins with, as for a run
 * session                       FOX_SESSION_WORDS words, which are 4,152 bytes. What each of them is for is not
 *                               told, and may change with the library's version. A copy of them is a session of
 *                               its own, at the same position. Only words that a start has filled and these calls
 *                               alone have changed are good. Of any others nothing is promised but that the calls
 *                               end, and read and write nothing outside what they were lent
 * input, input_len              0 to 65,536 bytes; position + input_len is at most 1,073,741,824
 * out, out_len                  as long as the input
 * position                      0 to 1,073,741,824: the offset of the byte that is to come next */
uint32_t fox_session_start_sealing(uint32_t cipher, uint32_t rounds, const uint8_t *key, size_t key_len,
                                   const uint8_t *counter, size_t counter_len,
                                   uint64_t session[FOX_SESSION_WORDS])
    FOX_NONNULL FOX_ANSWERS FOX_READS(3, 4) FOX_READS(5, 6);
uint32_t fox_session_start_opening(uint32_t cipher, uint32_t rounds, const uint8_t *key, size_t key_len,
                                   const uint8_t *counter, size_t counter_len,
                                   uint64_t session[FOX_SESSION_WORDS])
    FOX_NONNULL FOX_ANSWERS FOX_READS(3, 4) FOX_READS(5, 6);
uint32_t fox_session_advance(uint64_t session[FOX_SESSION_WORDS], const uint8_t *input, size_t input_len,
                             uint8_t *out, size_t out_len)
    FOX_NONNULL FOX_ANSWERS FOX_READS(2, 3) FOX_WRITES(4, 5);
uint32_t fox_session_move(uint64_t session[FOX_SESSION_WORDS], uint64_t position)
    FOX_NONNULL FOX_ANSWERS;

/* The counter block that a run begins with, from a number that the run has: the number, big-endian, stands in
 * the four bytes before the last four, and zeros in all others. Runs of up to 1,073,741,824 bytes whose
 * counter blocks were made from different numbers share no counter block, as is proved; that no number is
 * given to two runs under one key, nobody can check but the caller. The refusals are 1 and 4.
 *
 * cipher                FOX64 or FOX128
 * number                any
 * counter, counter_len  the room for it: 8 bytes for FOX64, 16 for FOX128 */
uint32_t fox_counter(uint32_t cipher, uint32_t number, uint8_t *counter, size_t counter_len)
    FOX_NONNULL FOX_ANSWERS FOX_WRITES(3, 4);

/* The tag of a message, made, or tested against a stored one. A test answers FOX_SERVED exactly where the
 * stored tag is that of the message, and writes nothing; it reads every byte of the stored tag, wherever the
 * two begin to differ.
 *
 * To tag a run, make the tag over all of its sealed bytes, store it beside them, and test it before opening
 * any of them. It covers these bytes alone: a change of the cipher, rounds or counter block to open with, or
 * of the file's name, goes unseen unless these stand in the message as well. Give tags a key of their own:
 * under one key, sealed counter blocks, which whoever knows a run's plain bytes has, can help to forge a tag.
 * Let it have 16 random bytes or more: a shorter one is served, so that tags under it can be tested and made, but
 * whoever finds it by trying can forge any.
 * SP 800-38B advises to tag no more than 2 to the 21 messages under one key with blocks of 64 bits, and no
 * more than 2 to the 48 with blocks of 128.
 *
 * cipher, rounds, key, key_len  as for a block that is opened: 0 to 32 bytes of key, to make as to test
 * message, message_len          0 to 1,073,741,824 bytes, the whole message in one call; of a longer one no
 *                               byte is read
 * tag, tag_len                  8 bytes for FOX64, 16 for FOX128: where the tag is made, the room for it;
 *                               where it is tested, the stored one */
uint32_t fox_card_make_tag(uint32_t cipher, uint32_t rounds, const uint8_t *key, size_t key_len,
                           const uint8_t *message, size_t message_len, uint8_t *tag, size_t tag_len)
    FOX_ON_BLOCK;
uint32_t fox_card_test_tag(uint32_t cipher, uint32_t rounds, const uint8_t *key, size_t key_len,
                           const uint8_t *message, size_t message_len, const uint8_t *tag, size_t tag_len)
    FOX_ON_STORED_TAG;
uint32_t fox_server_make_tag(uint32_t cipher, uint32_t rounds, const uint8_t *key, size_t key_len,
                             const uint8_t *message, size_t message_len, uint8_t *tag, size_t tag_len)
    FOX_ON_BLOCK;
uint32_t fox_server_test_tag(uint32_t cipher, uint32_t rounds, const uint8_t *key, size_t key_len,
                             const uint8_t *message, size_t message_len, const uint8_t *tag, size_t tag_len)
    FOX_ON_STORED_TAG;

/* A run file, written and read: a run of scans, as these lines and bytes. Every line ends with one line feed,
 * and nothing follows the last.
 *
 *   format=run
 *   cipher=64                 or 128
 *   rounds=16                 12 to 255
 *   counter=0000000100000000  the counter block that the run begins with, in upper-case hex digits
 *   scan=1                    then for each scan its number, counted from 1,
 *   bytes=5                   its length,
 *   .....                     its sealed bytes, which take their place in the run after those of earlier scans,
 *                             and a line feed
 *   scans=1                   the number of scans
 *   close=0123456789ABCDEF    the tag of all bytes before this line, in upper-case hex digits
 *
 * fox_file_size tells, as the count, how long the file of such scans will be. The refusals are 1, 2 and 12.
 *
 * fox_file_write seals the scans and writes their file; the count is its length, and what follows it in `out`
 * stays as it was. The refusals are 1, 2, 3, 13, 4, 12 and 6, looked for in this order.
 *
 * fox_file_take_up looks whether a file is right, every byte of it and the tag last, and sets `place` to its
 * first scan. The refusals are 1, 2, 3, 11, 12 and 10, looked for in this order; with any of them `place` is set
 * past the end of every file, so that nothing can be read there. Of a file above the limit no byte after the
 * header is read.
 *
 * fox_file_next_length tells how long the next scan is, or FOX_NO_SCAN where there is none: keep it in a
 * uint64_t.
 *
 * fox_file_read opens the next scan, with its length as the count, and moves the place on. Where no scan is left
 * it looks at nothing else, answers FOX_SERVED with a count of 0, writes nothing, and the place stays; an empty
 * scan has a count of 0 too, so ask fox_file_next_length which of them comes. The refusals are 1 to 4, 6 and 7;
 * the place stays with them too, so that the scan can be read after all. 7 comes only at a place that these
 * calls did not hand back for this file. Nothing is looked at but this scan and the header: that the file is
 * right was seen when it was taken up, and it is not to be changed since. A scan read with another key than the
 * file was taken up with, or with another number of rounds of as many digits, opens to other bytes; with rounds
 * of more or fewer digits, or with the other cipher, the answer is 4.
 *
 * fox_file_skip moves the place over the next scan, and takes as long for a long one as for a short one. Where no
 * scan is left it does nothing.
 *
 * To read all scans of a file, into a buffer `scan` of FOX_MOST_SCAN bytes:
 *
 *   uint64_t place[FOX_PLACE_WORDS], length, count;
 *   uint32_t refusal = fox_file_take_up(cipher, rounds, key, key_len, file, file_len, place);
 *   while (refusal == FOX_SERVED && (length = fox_file_next_length(file, file_len, place)) != FOX_NO_SCAN) {
 *       refusal = fox_file_read(cipher, rounds, key, key_len, file, file_len, place, scan, (size_t)length, &count);
 *       if (refusal == FOX_SERVED)
 *           use(scan, count);
 *   }
 *
 * Do not loop on fox_file_read's answer: it is 0 at the end too, again and again, and on a file that was refused.
 *
 * Each file is a run: under one key its counter block is that of no other (fox_counter). The key seals and tags
 * here, since the file has room for no other. So
 *
 * - the block of zeros, which the tag's subkeys are made from, is to be sealed in no run under that key, in a
 *   file or not: let none have the number 0, nor a counter block of your own that counts on through all ones to
 *   zero.
 * - every byte of a run file counts twice: with FOX64 keep to 512 MiB of run files under one key, where other
 *   runs keep to 1 GiB.
 * - each file is one message: with FOX64 write no more than 2 to the 21 under one key, as SP 800-38B advises.
 *
 * What the tag covers is the whole file, cipher, rounds and counter block with it; that one whole file was put in
 * the place of another under the same key goes unseen.
 *
 * cipher, rounds, key, key_len  as for a block: 16 to 32 bytes of key to write a file, 0 to 32 to take one up and
 *                               to read it; where a file is read, those that it was taken up with
 * counter, counter_len          the counter block that the run begins with, as for a run
 * data, data_len                the plain scans, one after the other
 * lengths, scans                how long each scan is, 0 to 65,536 bytes, and how many there are, 0 to 65,535;
 *                               together they are as long as the data. With no scans any address will do that
 *                               is aligned as a uint64_t is, but not NULL, which malloc(0) may answer
 * out, out_len                  for a file as many bytes as fox_file_size tells, or more; for a scan as many as
 *                               fox_file_next_length tells. For an empty scan any address will do, but not
 *                               NULL, which malloc(0) may answer; a buffer of FOX_MOST_SCAN bytes, used with
 *                               the told length, does for every scan
 * count                         gets the count; 0 where the call is refused
 * file, file_len                the whole file, with at most 1,073,741,824 bytes before the line `close`
 * place                         three numbers: where the next scan's first line is in the file, how many scans
 *                               were passed, and where the next scan's bytes stand in the run. Take-up sets
 *                               them, reading and skipping move them on, and a copy of them is a place to come
 *                               back to. Only a place that these calls have handed back for the same file,
 *                               key, cipher and rounds is good. Of any other one nothing is promised but that
 *                               the calls end, and read and write nothing outside what they were lent */
uint32_t fox_file_size(uint32_t cipher, uint32_t rounds, const uint64_t *lengths, size_t scans, uint64_t *count)
    FOX_NONNULL FOX_ANSWERS FOX_READS(3, 4) FOX_WRITES_ONE(5);
uint32_t fox_file_write(uint32_t cipher, uint32_t rounds, const uint8_t *key, size_t key_len,
                        const uint8_t *counter, size_t counter_len, const uint8_t *data, size_t data_len,
                        const uint64_t *lengths, size_t scans, uint8_t *out, size_t out_len, uint64_t *count)
    FOX_NONNULL FOX_ANSWERS FOX_READS(3, 4) FOX_READS(5, 6) FOX_READS(7, 8) FOX_READS(9, 10) FOX_WRITES(11, 12)
    FOX_WRITES_ONE(13);
uint32_t fox_file_take_up(uint32_t cipher, uint32_t rounds, const uint8_t *key, size_t key_len,
                          const uint8_t *file, size_t file_len, uint64_t place[FOX_PLACE_WORDS])
    FOX_NONNULL FOX_ANSWERS FOX_READS(3, 4) FOX_READS(5, 6);
uint64_t fox_file_next_length(const uint8_t *file, size_t file_len, const uint64_t place[FOX_PLACE_WORDS])
    FOX_NONNULL FOX_ANSWERS FOX_READS(1, 2);
uint32_t fox_file_read(uint32_t cipher, uint32_t rounds, const uint8_t *key, size_t key_len,
                       const uint8_t *file, size_t file_len, uint64_t place[FOX_PLACE_WORDS],
                       uint8_t *out, size_t out_len, uint64_t *count)
    FOX_NONNULL FOX_ANSWERS FOX_READS(3, 4) FOX_READS(5, 6) FOX_WRITES(8, 9) FOX_WRITES_ONE(10);
void fox_file_skip(const uint8_t *file, size_t file_len, uint64_t place[FOX_PLACE_WORDS])
    FOX_NONNULL FOX_READS(1, 2);

/* Wiping, which is C code and not proved; the tests look for keys in the stack after each call, and find none
 * once it was wiped.
 *
 * fox_wipe sets bytes to zero, and is not left out by a compiler that sees no use in it: for keys, for the words
 * of a session, and for opened data that is done with. fox_wipe_stack sets to zero what is below its caller's own
 * part of the stack, as deep as a call of the library may go: FOX_SERVER_STACK bytes, also after calls by the card
 * engine alone, and from libfox_card.a FOX_CARD_STACK. It takes so much stack itself, and less than 64 bytes more.
 * Call it in the very function that made the calls, after the last of them and in the same thread.
 *
 * What stays: the caller's own copies of a key or of a session, which fox_wipe is for; processor registers, until
 * other work overwrites them; and what the system has copied, as memory that was swapped out, a core dump, or the
 * registers that it saved when it switched to another thread. */
void fox_wipe(void *bytes, size_t length) FOX_NONNULL FOX_WRITES(1, 2);
void fox_wipe_stack(void);

/* One sentence in English for a number from 0 to 13: what it means, and what would be right. For any other
 * number the sentence says that it means nothing. Never NULL; the text is constant and stays valid while
 * the program runs. */
const char *fox_refusal_text(uint32_t number);

#ifdef __cplusplus
}
#endif

#undef FOX_NONNULL
#undef FOX_ANSWERS
#undef FOX_READS
#undef FOX_WRITES
#undef FOX_WRITES_ONE
#undef FOX_ON_BLOCK
#undef FOX_ON_RUN
#undef FOX_ON_STORED_TAG

#endif
