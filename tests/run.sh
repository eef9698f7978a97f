#!/bin/sh
# Builds and runs tests/run over libfox.a. A seed may be given, as an earlier run printed it.
# Last line: 'N passed, M failed'.
set -u
cd "$(dirname "$0")/.." || exit 2
. tests/host.sh
made run libfox.a
built run run tests/run/*.c $c/rows.c $guarded "$OUT/libfox.a"
run_host "./$OUT/run" tests/vectors/run.csv "$@"
