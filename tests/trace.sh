#!/bin/sh
# Builds and runs tests/trace over libfox.a: calls that differ in keys, blocks and data alone, each instruction and each access
# to data of which is held to those of another one. By the card all are the same; what looks up and what branches is seen to
# differ. valgrind's tool lackey shows all of it; stepping through a child, and an emulator for the other processor,
# instructions alone. Last line: 'N passed, M failed'.
set -u
cd "$(dirname "$0")/.." || exit 2
. tests/host.sh
room=$(mktemp -d) || exit 2
trap 'rm -rf "$room"' EXIT
made trace libfox.a
# The program stands at the same place whenever it is run, and looks for no function of the C library within a call.
built trace traced -no-pie -Wl,-z,now tests/trace/*.c tests/measure/planted/branches.c $c/chance.c $engines "$OUT/libfox.a"
traced=./$OUT/traced

counted() { # COMMAND..
    add "$room/said" "$@"
}

# Without the hint Arm's exclusive stores never succeed, since lines are written between each of them and its load, and the
# program does not end.
with_lackey() { # COMMAND..: its trace is written to 3
    timeout 300 valgrind --tool=lackey --basic-counts=no --trace-mem=yes --sim-hints=fallback-llsc --log-fd=3 "$@"
}

by_lackey() { # ENGINE PLAN
    with_lackey "$traced" calls "$@" 3>&1 >"$room/calls" | "$traced" lackey "$@"
}

by_emulator() { # ENGINE PLAN
    timeout 300 "$EMULATOR" -d exec,nochain "$traced" calls "$@" 2>&1 >"$room/calls" | run_host "$traced" emulator "$@"
}

by_steps() { # ENGINE PLAN
    timeout 300 "$traced" step "$@"
}

# The planted engines and those with tables first, to see that what differs is found.
all_by_lackey() {
    for engine in constant faulty $(engine_names | grep -vx card); do
        counted by_lackey "$engine" brief
    done
    counted by_lackey card whole
}

instructions_by() { # COMMAND PLAN
    counted "$1" constant brief
    counted "$1" faulty brief
    counted "$1" card "$2"
}

no_lackey() { # why there is no trace of data; nothing where there is
    if ! command -v valgrind >/dev/null 2>&1; then
        echo "there is no valgrind (Debian: valgrind)"
    elif ! with_lackey "$traced" calls constant brief 3>"$room/trace" >"$room/calls" 2>&1; then
        echo "valgrind's tool lackey does not run here: $(grep -v '^[I ]' "$room/trace" | tail -n 1)"
    fi
}

for engine in $(engine_names); do
    counted run_host "$traced" calls "$engine" whole
done
if [ -n "$EMULATOR" ]; then
    instructions_by by_emulator whole
    left_out trace "where data is read and written" "an emulator shows instructions alone"
else
    why=$(no_lackey)
    if [ -z "$why" ]; then all_by_lackey; else left_out trace "where data is read and written" "$why"; fi
    if "$traced" can-step; then
        instructions_by by_steps brief
    else
        left_out trace "instructions by stepping" "a child cannot be stepped through here"
    fi
fi
close_sum
