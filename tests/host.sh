# Sourced by the host tests from the project's folder, for tools/machine.sh and what they have in common: the sources of
# their programs, how these are built over the library as it is shipped, and how passes and failures are counted.
. tools/machine.sh
# What make hands on to its commands is not meant for the makes that tests start.
unset MAKEFLAGS MFLAGS MAKELEVEL DESTDIR PREFIX
mkdir -p "$OUT" target/log

# The second implementation; what programs stand on that do not call the library; what those do that call it, and those
# that see besides where a call faults, and what lies beside its buffers.
c=tests/common s=tests/second
second="$s/second.c $s/cmac.c $s/schedule.c $s/rounds.c $s/matrix.c $s/box.c $s/field.c"
helpers="$c/chance.c $c/hex.c $c/tally.c"
engines="$c/call.c $c/engines.c $c/hex.c $c/tally.c"
guarded="$engines $c/answers.c $c/chance.c $c/faults.c $c/laid.c $c/rooms.c"
includes="-Iinclude -I$c -I$s -Itests/beside -Itests/file"

engine_names() { # as the tests' table has them
    sed -n 's/^ENGINE(\([a-z0-9_]*\),.*/\1/p' "$c/engines.def"
}

failed_to() { # PART WHAT: ends a part that could not be run
    echo "$1: $2"
    echo "0 passed, 1 failed"
    exit 1
}

left_out() { # PART WHAT WHY: the gate lists these lines once more at its end
    echo "$1: left out: $2, since $3"
}

made() { # PART FILE..: has make make these in the folder OUT, or ends the part
    part=$1
    shift
    sh tools/needs.sh || failed_to "$part" "something is missing that it cannot do without"
    for file; do
        make --no-print-directory -s "$OUT/$file" || failed_to "$part" "$OUT/$file was not made"
    done
}

built() { # PART PROGRAM WORDS..: compiles these into the program in the folder OUT, or ends the part
    part=$1 program=$2
    shift 2
    $CC_HOST -std=gnu11 -O1 -Wall -Wextra -Werror $includes -o "$OUT/$program" "$@" ||
        failed_to "$part" "the program $program was not built"
}

text_of() { # FILE: its bytes of code and constants
    $(tool size) "$1" | awk 'NR > 1 { sum += $1 } END { print sum }'
}

passed=0 failed=0

passes() { # WHAT
    passed=$((passed + 1))
    echo "$1"
}

fails() { # WHAT
    failed=$((failed + 1))
    echo "$1: FAILED"
}

# What was said ends with 'N passed, M failed', which is added to the sum. What ends otherwise, or has tried nothing, counts
# as one failure, and so does another exit status than 0 that no failure explains.
add_said() { # FILE STATUS
    status=$2
    set -- $(tail -n 1 "$1" | sed -n 's/^\([0-9][0-9]*\) passed, \([0-9][0-9]*\) failed$/\1 \2/p')
    if [ $# -ne 2 ] || [ "$1 $2" = "0 0" ]; then
        echo "ended with status $status, and no test was counted: FAILED"
        set -- 0 1
    elif [ "$status" -ne 0 ] && [ "$2" -eq 0 ]; then
        echo "ended with status $status, though nothing failed: FAILED"
        set -- "$1" 1
    fi
    passed=$((passed + $1)) failed=$((failed + $2))
}

add() { # FILE COMMAND..: shows what the command says, keeps it in the file, and adds it
    said=$1
    shift
    { ("$@") 2>&1; echo "$?" >"$said.status"; } | tee "$said"
    add_said "$said" "$(cat "$said.status")"
}

close_sum() { # the last line of a part, and its exit status
    echo "$passed passed, $failed failed"
    [ "$failed" -eq 0 ]
}
