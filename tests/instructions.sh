#!/bin/sh
# Looks at compiled code, disassembled. tests/measure/instructions.txt has symbols whose instructions are counted and held to a
# limit: a lookup that built its table anew would take hundreds. tests/measure/jumps.txt has those functions of the shipped
# library that double and halve in the field, and how many conditional jumps each may have: a doubling that branched on its byte
# would add one for each byte. Last line: 'N passed, M failed'.
set -u
cd "$(dirname "$0")/.." || exit 2
. tests/host.sh
made instructions libfox_probe.a libfox.a

case $PROCESSOR in
    x86_64) column=1 jumps='(call|j[a-z]+)q?' conditional='(j[a-ln-z][a-z]*|loop[a-z]*)' ;;
    aarch64) column=2 jumps='(b|bl|br|blr|b\.[a-z]+|cbn?z|tbn?z)' conditional='(b\.[a-z]+|cbn?z|tbn?z)' ;;
    *) failed_to instructions "there are no limits for $PROCESSOR" ;;
esac

disassembled() { # FILE
    "$(tool objdump)" -d --no-show-raw-insn "$OUT/$1" >"$OUT/$1.code" ||
        failed_to instructions "the code of $1 was not disassembled"
}

code_of() { # FILE SYMBOL: its instructions, into $OUT/symbol.code; a SYMBOL that ends with :: is all those that begin so
    case $2 in *::) s="<$2" ;; *) s="<$2>:" ;; esac
    awk -v s="$s" 'index($2, s) == 1 && /^[0-9a-f]/ { on = 1; next } /^$/ { on = 0 } on && /^ / { print }' "$OUT/$1.code" \
        >"$OUT/symbol.code"
    [ -s "$OUT/symbol.code" ] || failed_to instructions "$1 has no $2"
}

how_many() { # EXPRESSION: of the instructions in $OUT/symbol.code
    grep -Ec "[[:space:]]$1([[:space:]]|\$)" "$OUT/symbol.code"
}

listed() { # FILE: symbol and limit for this processor, line by line
    awk -v c="$column" '!/^(#|$)/ { print $1, $(1 + c) }' "$1"
}

count_instructions() {
    while read -r symbol limit; do
        code_of libfox_probe.a "$symbol"
        count=$(grep -c '' "$OUT/symbol.code")
        if [ "$(how_many "$jumps")" -gt 0 ]; then
            fails "instructions: $symbol calls or jumps, so that a count of lines says nothing of it"
        elif [ "$count" -lt "$limit" ]; then
            passes "instructions: $symbol takes $count, below $limit"
        else
            fails "instructions: $symbol takes $count, and is to stay below $limit"
        fi
    done
}

count_jumps() {
    while read -r symbol limit; do
        code_of libfox.a "$symbol"
        count=$(how_many "$conditional")
        if [ "$count" -le "$limit" ]; then
            passes "instructions: $symbol has $count conditional jumps, and may have $limit"
        else
            fails "instructions: $symbol has $count conditional jumps, and may have $limit"
        fi
    done
}

# Doubling and halving that do branch: what is counted above has to be seen in them.
find_planted() {
    for symbol in planted_double planted_halve; do
        code_of planted.o "$symbol"
        if [ "$(how_many "$conditional")" -gt 0 ]; then
            passes "instructions: the branch in $symbol is found"
        else
            fails "instructions: the branch in $symbol is not found"
        fi
    done
}

disassembled libfox_probe.a
disassembled libfox.a
built instructions planted.o -c tests/measure/planted/branches.c
disassembled planted.o
listed tests/measure/instructions.txt >"$OUT/listed.instructions"
listed tests/measure/jumps.txt >"$OUT/listed.jumps"
count_instructions <"$OUT/listed.instructions"
count_jumps <"$OUT/listed.jumps"
find_planted
close_sum
