#!/bin/sh
# Sees that the fuzzers find faults: each one of wrong_sheet.c, wrong_calls.c, wrong_session.c and wrong_file.c, put into the
# library by itself, within a minute and from an empty corpus. Last line: 'N passed, M failed'.
set -u
cd "$(dirname "$0")/../.." || exit 2
. tests/host.sh

find_fault() { # sheet|calls|session|file FAULT
    rm -rf build/fuzz/wrong
    began=$(date +%s)
    said=$(FAULT=$2 sh tests/fuzz.sh 60 "$1" 2>&1)
    if [ $? -eq 1 ]; then
        passes "faults: $2 found in the $1, built and run in $(($(date +%s) - began)) s"
    else
        fails "faults: $2 not found in the $1: $said"
    fi
}

for fault in LEADING_ZERO SMALL_DIGIT FEED_AFTER NUMBER_WRAPS NUL_AFTER READS_AFTER FIFTEEN_SEALED OPENING_REFUSED; do
    find_fault sheet $fault
done
for fault in BYTE_WRONG REFUSALS_EXCHANGED SUM_WRAPS CARRY_LOST UPPER_CARRY_LOST LAST_LENGTH_REFUSED CIPHER_CUT \
    MOST_ROUNDS_WRONG REFUSED_WRITES KEY_READ_AFTER MESSAGE_CUT LAST_BYTE_UNTESTED SIXTEEN_REFUSED FIFTEEN_SERVED \
    SHORT_KEY_EARLY SHORT_KEY_LATE OPENING_REFUSED TAG_REFUSED; do
    find_fault calls $fault
done
for fault in EDGE_KEEPS_BLOCK MOVE_KEEPS_BLOCK MOVE_BACK_TO_FIRST MOVE_FORGOTTEN POSITION_CUT REFUSED_ADVANCE_MOVES \
    REFUSED_ADVANCE_WRITES REFUSED_MOVE_MOVES REFUSED_START_LEAVES END_PASSED END_NOT_REACHED LAST_BLOCK_WRONG \
    CARRY_LOST_LATER LONGEST_REFUSED SESSION_READ_AFTER INPUT_READ_AFTER SIXTEEN_NOT_STARTED FIFTEEN_STARTED \
    OPENING_NOT_STARTED SHORT_START_LEAVES SEALING_FORGOTTEN SEALING_STAYS SEALING_LOST SEALING_BEGUN; do
    find_fault session $fault
done
for fault in ZERO_BEFORE_LENGTH ANY_SCAN_NUMBER FEED_AFTER_CLOSE SMALL_DIGIT_IN_CLOSE TAG_BYTE_UNTESTED REFUSED_PLACE_STAYS \
    FILE_READ_AFTER REFUSED_READ_MOVES LONGER_BUFFER_SERVED END_COUNTS OFFSET_LOST TENTH_SCAN_WRONG SUM_UNTESTED \
    WRITES_AFTER_FILE SIXTEEN_NOT_WRITTEN SHORT_KEY_WRITTEN SHORT_KEY_LATE OLD_FILE_REFUSED OLD_SCAN_REFUSED; do
    find_fault file $fault
done
close_sum
