#!/bin/sh
# Builds and runs tests/session over libfox.a, with the second implementation beside it. The cases are the same each time; with
# a seed they are others. Last line: 'N passed, M failed'.
set -u
cd "$(dirname "$0")/.." || exit 2
. tests/host.sh
made session libfox.a
built session session tests/session/*.c $s/session.c $c/session_call.c $second $guarded "$OUT/libfox.a"
run_host "./$OUT/session" "$@"
