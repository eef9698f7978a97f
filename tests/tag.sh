#!/bin/sh
# Builds and runs tests/tag over libfox.a. A seed may be given, as an earlier run printed it.
# Last line: 'N passed, M failed'.
set -u
cd "$(dirname "$0")/.." || exit 2
. tests/host.sh
made tag libfox.a
built tag tag tests/tag/*.c $c/rows.c $guarded "$OUT/libfox.a"
run_host "./$OUT/tag" tests/vectors/tag.csv "$@"
