#!/bin/sh
# Looks for keys in what calls leave behind, before and after wiping: the calls of libfox.a with its own wiping, those of
# libfox_card.a with its own, and stretch, with its wiping and without. Last line: 'N passed, M failed'.
set -u
cd "$(dirname "$0")/.." || exit 2
. tests/host.sh
room=$(mktemp -d) || exit 2
trap 'rm -rf "$room"' EXIT
made wipe libfox.a libfox_card.a

# Of the card's library comes what it has, and the server's calls and those on sessions and run files, which are not made
# then, of the other.
left="tests/wipe/left.c $s/file.c $c/painted.c $c/session_call.c $c/file_call.c $engines $second"
built wipe left $left "$OUT/libfox.a"
built wipe left_card $left "$OUT/libfox_card.a" "$OUT/libfox.a"

held="tests/wipe/held.c examples/stretch_job.c $c/painted.c $c/hex.c $c/tally.c $second -Iexamples"
built wipe held $held "$OUT/libfox.a"
built wipe held_left -include tests/wipe/not_wiped.h $held "$OUT/libfox.a"
(umask 077 && echo 93A1F05C7E2B48D6B10C6F9E3527DA84 >"$room/key")
seq 1 30000 >"$room/plain"

add "$room/said" run_host "./$OUT/left"
add "$room/said" run_host "./$OUT/left_card" card
add "$room/said" run_host "./$OUT/held" wiped "$room/key" "$room/plain" "$room/sealed"
add "$room/said" run_host "./$OUT/held_left" left "$room/key" "$room/plain" "$room/sealed"
close_sum
