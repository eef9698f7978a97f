#!/bin/sh
# Builds and runs tests/file over libfox.a, with the second implementation beside it. A seed may be given, as an earlier run
# printed it. Last line: 'N passed, M failed'.
set -u
cd "$(dirname "$0")/.." || exit 2
. tests/host.sh
made file libfox.a
built file file tests/file/*.c $s/file.c $c/file_call.c $c/rows.c $second $guarded "$OUT/libfox.a"
run_host "./$OUT/file" tests/vectors/files tests/file/old.csv "$@"
