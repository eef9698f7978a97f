# Sourced by tests/product.sh after trouble.sh: the progress line of stretch, on a terminal and elsewhere.
# The program that makes the terminal is for this processor, as the shell is.

long_size=10000000
head -c "$long_size" /dev/zero >"$room/long"

on_terminal() { # OUT WORDS..: what came on the terminal is in the file shown
    out=$1
    shift
    "$room/terminal" "$out" $EMULATOR "./$OUT/stretch" "$@" >"$room/shown"
}

# Rewritten in place: no line's end, more than one text between returns, and in the end blanks over the whole of the last.
shows_and_clears() {
    on_terminal "$room/out" open $with64 "$room/long" || return 1
    same_text "$long_size" "$(wc -c <"$room/out" | tr -d ' ')" || return 1
    tr '\r' '\n' <"$room/shown" >"$room/lines"
    cat "$room/lines"
    same_text 0 "$(tr -dc '\n' <"$room/shown" | wc -c | tr -d ' ')" || return 1
    grep -q '^stretch: 0.0 of 9.5 MiB, 0 %$' "$room/lines" || return 1
    widest=$(awk '/%/ && length > most { most = length } END { print most }' "$room/lines")
    same_text "$(printf '%*s' "$widest" '')" "$(tail -n 1 "$room/lines")" &&
        same_text 0d "$(tail -c 1 "$room/shown" | od -An -tx1 | tr -d ' ')"
}

shows_nothing_of_short_work() {
    on_terminal "$room/out" open $with64 -l 10000 "$room/long" && same_text "" "$(cat "$room/shown")"
}

shows_nothing_elsewhere() {
    stretch open $with64 "$room/long" 2>"$room/error" >/dev/null && same_text "" "$(cat "$room/error")"
}

# The message begins on a cleared line.
clears_before_trouble() {
    rm -f "$room/reader" && mkfifo "$room/reader"
    head -c 2000000 "$room/reader" >/dev/null &
    reader=$!
    on_terminal "$room/reader" open $with64 "$room/long"
    status=$?
    kill "$reader" 2>/dev/null # which waits for ever where nothing opened the pipe
    wait "$reader"
    tr '\r' '\n' <"$room/shown" | sed '/^$/d' >"$room/lines"
    cat "$room/lines"
    same_text 1 "$status" && grep -q '^ *$' "$room/lines" &&
        same_text "stretch: standard output cannot be written: Broken pipe" "$(tail -n 1 "$room/lines")"
}

if ${CC:-gcc} -std=gnu11 $strict -o "$room/terminal" tests/product/terminal.c && "$room/terminal" /dev/null true; then
    check "stretch: long work on a terminal shows how far it is, in place, and clears it" shows_and_clears
    check "stretch: short work on a terminal shows nothing" shows_nothing_of_short_work
    check "stretch: a message comes on a cleared line" clears_before_trouble
else
    left_out product "stretch: progress on a terminal" "this machine hands out no terminal (is /dev/pts there?)"
fi
check "stretch: long work shows nothing where there is no terminal" shows_nothing_elsewhere
