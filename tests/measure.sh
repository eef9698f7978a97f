#!/bin/sh
# Builds and runs tests/measure over libfox_probe.a and libfox.a: the stack of each call and, where a child can be stepped
# through, instructions. Last line: 'N passed, M failed'.
set -u
cd "$(dirname "$0")/.." || exit 2
. tests/host.sh
made measure libfox_probe.a libfox.a
built measure measure tests/measure/*.c $s/file.c $c/painted.c $c/session_call.c $c/file_call.c $second $engines \
    "$OUT/libfox_probe.a" "$OUT/libfox.a"
run_host "./$OUT/measure"
