#!/bin/sh
# The gate: crates.txt and documents held to the sources, `rt ci` over every listed crate, then the host tests, on the library
# for this machine's processor and, where a compiler and an emulator are there for the other one, beside it on that for it too.
# `sh tests/gate.sh host` leaves `rt ci` out. Each part closes with 'N passed, M failed'; the very last line here is the sum, and
# the exit status is 0 only where that says 0 failed. A part that closes otherwise, that passed nothing, or that has another exit
# status than its count asks for, counts as one failure. The sum is written into the file that GATE_SUM names too.
set -u
cd "$(dirname "$0")/.." || exit 2
. tests/host.sh
began=$(date +%s)
log=$(mktemp -d) || exit 2
trap 'rm -rf "$log"' EXIT
# A gate that a test starts has no such file.
sum=${GATE_SUM:-/dev/null}
unset GATE_SUM
: >"$log/left"

part() { # NAME COMMAND..
    name=$1 had_passed=$passed had_failed=$failed since=$(date +%s)
    shift
    add "$log/$name" "$@"
    grep ': left out: ' "$log/$name" | sed "s/^[^:]*: /gate: $name: /" >>"$log/left"
    echo "gate: $name: $((passed - had_passed)) passed, $((failed - had_failed)) failed, in $(($(date +%s) - since)) s"
}

minutes() {
    seconds=$(($(date +%s) - began))
    echo "$((seconds / 60)) min $((seconds % 60)) s"
}

# Each crate and each edit with how many of how many that makes, and the time so far. Where an edit cannot be put in its place,
# or not be read there, rt says so and passes all the same; here that counts as a failure.
rt_ci() {
    edits=$(find crates -path '*/must-fail/*.edit' | wc -l) count=0
    total=$(($(grep -c '^[a-z]' crates.txt) + edits))
    { rt ci 2>&1; echo "$?" >"$log/ci"; } | tee "$log/ci.said" | while IFS= read -r line; do
        usual "$line" && continue
        case $line in
            'rt: '*': its tests '*) ;;
            'rt: '*' proved' | 'rt: '*' NOT PROVED'* | 'rt: '*' is kept: '* | 'rt: must-fail '*)
                count=$((count + 1))
                line="[$count of $total, $(minutes)] $line"
                ;;
        esac
        printf '%s\n' "$line"
    done
    status=$(cat "$log/ci")
    [ "$status" -eq 0 ] || return "$status"
    refused=$(sed -n 's/^rt: ok; .*must-fail edits: \([0-9]*\) refused.*/\1/p' "$log/ci.said")
    bad=$(sed -n 's/^rt: ok; .*must-fail edits: [0-9]* refused[^;]*, \([0-9]*\) bad;.*/\1/p' "$log/ci.said")
    lost=$((edits - ${refused:-0}))
    [ "$lost" -ge "${bad:-0}" ] || lost=$bad
    [ "$lost" -gt 0 ] || return 0
    echo "rt ci: $lost edits say nothing, since they were not refused, but passed over as BAD EDIT or not seen: FAILED"
    sed -n "s/^\([0-9]*\) passed, 0 failed\$/\1 passed, $lost failed/p" "$log/ci.said"
    return 1
}

# All that the tests link and run is made before they begin, since rt proves for one caller at a time.
made_for() ( # PROCESSOR
    PROCESSOR=$1
    . tools/machine.sh
    make --no-print-directory -s all "$OUT/libfox_probe.a"
)

# The bench program is an x86-64 program on every machine, and is tested once.
host_tests() { # PROCESSOR
    export PROCESSOR="$1"
    for test in instructions measure trace wipe run part session tag file second sheets product; do
        [ "$test" != sheets ] || [ "$1" = "$MACHINE" ] || continue
        part "$test, $1" sh "tests/$test.sh"
    done
}

# Beside the machine's own, with a sum of their own.
other_host_tests() { # PROCESSOR
    passed=0 failed=0
    host_tests "$1"
    close_sum
}

finish() {
    cat "$log/left"
    close_sum | tee "$sum"
    [ "$failed" -eq 0 ]
    exit
}

sh tools/needs.sh || {
    failed=1
    finish
}
sh tools/needs.sh optional
part crates sh tools/crates.sh check
[ "${1:-all}" = host ] || part "rt ci" rt_ci

other=$(other_processor) tested="the library for $MACHINE"
why=$(PROCESSOR=$other && . tools/machine.sh && no_programs)
made_for "$MACHINE"
if [ -z "$why" ]; then
    tested="$tested, and on that for $other by an emulator"
    made_for "$other"
    { other_host_tests "$other" >"$log/other" 2>&1; echo "$?" >"$log/other.status"; } &
else
    left_out gate "host tests of the library for $other" "$why" >>"$log/left"
fi
host_tests "$MACHINE"
wait
if [ -z "$why" ]; then
    cat "$log/other"
    add_said "$log/other" "$(cat "$log/other.status")"
fi
echo "gate: host tests ran on $tested; the whole took $(minutes)"
finish
