/* Stands before the exports on sessions, by the linker's --wrap, and puts the one fault named by FAULT into them, so
 * that one sees whether the fuzzer finds it. */
#include "fox.h"

#include <string.h>

enum {
    EDGE_KEEPS_BLOCK = 1,
    MOVE_KEEPS_BLOCK,
    MOVE_BACK_TO_FIRST,
    MOVE_FORGOTTEN,
    POSITION_CUT,
    REFUSED_ADVANCE_MOVES,
    REFUSED_ADVANCE_WRITES,
    REFUSED_MOVE_MOVES,
    REFUSED_START_LEAVES,
    END_PASSED,
    END_NOT_REACHED,
    LAST_BLOCK_WRONG,
    CARRY_LOST_LATER,
    LONGEST_REFUSED,
    SESSION_READ_AFTER,
    INPUT_READ_AFTER,
    SIXTEEN_NOT_STARTED,
    FIFTEEN_STARTED,
    OPENING_NOT_STARTED,
    SHORT_START_LEAVES,
    SEALING_FORGOTTEN,
    SEALING_STAYS,
    SEALING_LOST,
    SEALING_BEGUN
};

/* Which word is what. */
enum { CIPHER = 510, COUNTER = 513, POSITION = 515, BLOCK = 516, SEALING = 518, BLOCK_SIZE = 2 * sizeof(uint64_t) };

#define START_PARAMETERS                                                                                     \
    uint32_t cipher, uint32_t rounds, const uint8_t *key, size_t key_len, const uint8_t *counter,             \
        size_t counter_len, uint64_t *session
#define START_ARGUMENTS cipher, rounds, key, key_len, counter, counter_len, session

uint32_t __real_fox_session_start_sealing(START_PARAMETERS);
uint32_t __wrap_fox_session_start_sealing(START_PARAMETERS);
uint32_t __real_fox_session_start_opening(START_PARAMETERS);
uint32_t __wrap_fox_session_start_opening(START_PARAMETERS);
uint32_t __real_fox_session_advance(uint64_t *session, const uint8_t *input, size_t input_len, uint8_t *out,
                                    size_t out_len);
uint32_t __wrap_fox_session_advance(uint64_t *session, const uint8_t *input, size_t input_len, uint8_t *out,
                                    size_t out_len);
uint32_t __real_fox_session_move(uint64_t *session, uint64_t position);
uint32_t __wrap_fox_session_move(uint64_t *session, uint64_t position);

/* A start that is refused with this number. */
static uint32_t none_started(uint64_t *session, uint32_t number)
{
    memset(session, 0, FOX_SESSION_WORDS * sizeof *session);
    return number;
}

uint32_t __wrap_fox_session_start_sealing(START_PARAMETERS)
{
    const uint64_t before = session[7];
    uint32_t answer = __real_fox_session_start_sealing(START_ARGUMENTS);
    if ((FAULT == REFUSED_START_LEAVES && answer == FOX_REFUSED_BLOCK) ||
        (FAULT == SHORT_START_LEAVES && answer == FOX_REFUSED_SHORT_KEY))
        session[7] = before;
    if (FAULT == SIXTEEN_NOT_STARTED && answer == FOX_SERVED && key_len == FOX_LEAST_SEAL_KEY)
        return none_started(session, FOX_REFUSED_SHORT_KEY);
    if (FAULT == FIFTEEN_STARTED && answer == FOX_REFUSED_SHORT_KEY && key_len == FOX_LEAST_SEAL_KEY - 1)
        return __real_fox_session_start_opening(START_ARGUMENTS);
    if (FAULT == SEALING_FORGOTTEN)
        session[SEALING] = 0;
    return answer;
}

uint32_t __wrap_fox_session_start_opening(START_PARAMETERS)
{
    const uint64_t before = session[SEALING];
    uint32_t answer = __real_fox_session_start_opening(START_ARGUMENTS);
    if (FAULT == OPENING_NOT_STARTED && answer == FOX_SERVED && key_len < FOX_LEAST_SEAL_KEY)
        return none_started(session, FOX_REFUSED_SHORT_KEY);
    if (FAULT == SEALING_STAYS && answer == FOX_SERVED)
        session[SEALING] = before;
    return answer;
}

/* Whether something was carried out of the counter's last word before this byte of the run. */
static int carried(const uint64_t *session, uint64_t byte)
{
    const uint64_t b = session[CIPHER] / 8, low = session[b == FOX64_BLOCK ? COUNTER : COUNTER + 1] & UINT32_MAX;
    return low + byte / b > UINT32_MAX;
}

static uint32_t spoilt_advance(uint64_t *session, const uint8_t *input, size_t input_len, uint8_t *out, size_t out_len)
{
    const uint64_t from = session[POSITION], b = session[CIPHER] == FOX64 ? FOX64_BLOCK : FOX128_BLOCK;
    uint64_t block[2];
    memcpy(block, session + BLOCK, BLOCK_SIZE);
    uint32_t answer = __real_fox_session_advance(session, input, input_len, out, out_len);
    if (answer != FOX_SERVED || input_len == 0)
        return answer;
    if (FAULT == EDGE_KEEPS_BLOCK && session[POSITION] % b == 0 && input_len < b)
        memcpy(session + BLOCK, block, BLOCK_SIZE);
    if (FAULT == SEALING_BEGUN && input_len > b)
        session[SEALING] = 1;
    if ((FAULT == LAST_BLOCK_WRONG && session[POSITION] > FOX_RUN_END - b) ||
        (FAULT == CARRY_LOST_LATER && carried(session, session[POSITION] - 1) && from % b != 0))
        out[input_len - 1] ^= 1;
    return answer;
}

uint32_t __wrap_fox_session_advance(uint64_t *session, const uint8_t *input, size_t input_len, uint8_t *out,
                                    size_t out_len)
{
    if (FAULT == LONGEST_REFUSED && input_len == FOX_MOST_DATA && out_len == input_len && session[CIPHER] != 0)
        return FOX_REFUSED_DATA;
    if (FAULT == SESSION_READ_AFTER && session[POSITION] > 300 && session[FOX_SESSION_WORDS] == 0x77)
        session[POSITION]++;
    if (FAULT == INPUT_READ_AFTER && input_len % 64 == 63 && input[input_len] == 0x77)
        session[POSITION]++;
    uint32_t answer = spoilt_advance(session, input, input_len, out, out_len);
    if (FAULT == REFUSED_ADVANCE_MOVES && answer == FOX_REFUSED_OUTPUT)
        session[POSITION] = 0;
    if (FAULT == REFUSED_ADVANCE_WRITES && answer == FOX_REFUSED_END && out_len > 0)
        out[0] = 0;
    if (FAULT == END_PASSED && answer == FOX_REFUSED_END && session[POSITION] + input_len == FOX_RUN_END + 1ull)
        return FOX_SERVED;
    return answer;
}

uint32_t __wrap_fox_session_move(uint64_t *session, uint64_t position)
{
    const uint64_t from = session[POSITION];
    uint64_t block[2];
    memcpy(block, session + BLOCK, BLOCK_SIZE);
    if (FAULT == MOVE_BACK_TO_FIRST && position < from && session[CIPHER] != 0)
        __real_fox_session_move(session, 0), memcpy(block, session + BLOCK, BLOCK_SIZE);
    if (FAULT == END_NOT_REACHED && position == FOX_RUN_END && session[CIPHER] != 0)
        return FOX_REFUSED_END;
    uint32_t answer = __real_fox_session_move(session, FAULT == POSITION_CUT ? (uint32_t)position : position);
    if (answer == FOX_SERVED && (FAULT == MOVE_KEEPS_BLOCK || (FAULT == MOVE_BACK_TO_FIRST && position < from)))
        memcpy(session + BLOCK, block, BLOCK_SIZE);
    if (FAULT == MOVE_FORGOTTEN && answer == FOX_SERVED && position < from)
        session[POSITION] = from;
    if (FAULT == SEALING_LOST && answer == FOX_SERVED && position < from)
        session[SEALING] = 0;
    if (FAULT == REFUSED_MOVE_MOVES && answer == FOX_REFUSED_END)
        session[POSITION] = FOX_RUN_END;
    return answer;
}
