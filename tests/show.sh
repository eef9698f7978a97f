#!/bin/sh
# What `make run` shows: a block sealed by the bench program, a file sealed by the card engine under a new key, and a stretch
# of it opened by the server's. The exit status is 0 only where what was opened is what was sealed.
set -u
cd "$(dirname "$0")/.." || exit 2
sheet=examples/sheet.txt plain=examples/sample.txt
key=build/sample.key sealed=build/sample.sealed opened=build/sample.opened expected=build/sample.expected

stop() { # WHAT
    echo "make run: $1" >&2
    exit 1
}

indented() {
    sed 's/^/    /'
}

shown() { # COMMAND: as it would be typed
    echo "    \$ $1"
}

typed() { # COMMAND: shown, and done
    shown "$1"
    eval "$1"
}

prove() {
    sh tools/needs.sh || stop "something is missing that it cannot do without"
    echo "Proving and building the bench program and the library: ten to fifteen minutes the first time, on two cores, and seconds after."
    sh tools/prove.sh fox_bench $(sed -n 's/^fox_station_[a-z]* staticlib: *//p' crates.txt) || stop "not all was proved"
    make --no-print-directory -s all || stop "the library was not built"
}

bench() {
    echo
    echo "The bench program seals one block by the card engine. It reads a sheet of five lines, $sheet:"
    indented <"$sheet"
    shown "make bench <$sheet"
    sh tools/bench.sh <"$sheet" >build/bench.answer || stop "the bench program failed"
    echo "It answers:"
    indented <build/bench.answer
    grep -qx "block=B85D6B766DCE952E" build/bench.answer || stop "that is not the block of the specification"
    echo "That is the block that the specification has for it."
}

new_key() {
    echo
    echo "A key of 16 random bytes, in a file that nobody else can read:"
    typed "(umask 077; od -An -v -tx1 -N16 /dev/urandom | tr -dc 0-9a-f >$key)" || stop "no key was made"
}

# Each run under one key has a number of its own; this is the first.
seal() {
    echo
    echo "The card engine seals a file under it, $plain, as run number 1 in counter mode:"
    typed "build/stretch seal --card -c 64 -r 16 -k $key -n 1 $plain >$sealed" || stop "the file was not sealed"
    echo "The sealed file begins:"
    od -An -tx1 -N 32 "$sealed" | sed 's/^ */    /'
}

# Five lines from the middle of the sample.
open_stretch() {
    from=$(($(head -n 6 "$plain" | wc -c))) length=$(($(head -n 11 "$plain" | wc -c) - from))
    echo
    echo "The server engine opens $length bytes of it alone, from byte $from on:"
    command="build/stretch open -c 64 -r 16 -k $key -n 1 -f $from -l $length $sealed"
    shown "$command"
    eval "$command" >"$opened" || stop "the stretch was not opened"
    tail -c "+$((from + 1))" "$plain" | head -c "$length" >"$expected"
}

compare() {
    echo "Opened, and beside it the same bytes of the sample:"
    paste -d '|' "$opened" "$expected" | cat -v | sed 's/|/        |  /' | indented
    cmp "$opened" "$expected" || stop "what was opened is not what was sealed"
    echo "They agree in each of their $(($(wc -c <"$opened"))) bytes."
}

prove
bench
new_key
seal
open_stretch
compare
