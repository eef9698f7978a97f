#!/bin/sh
# Builds and runs tests/part over libfox_probe.a and libfox.a, with the second implementation beside them. The cases are the
# same each time; with a seed they are others. Last line: 'N passed, M failed'.
set -u
cd "$(dirname "$0")/.." || exit 2
. tests/host.sh
made part libfox_probe.a libfox.a
built part part tests/part/*.c $s/part.c $c/painted.c $second $guarded "$OUT/libfox_probe.a" "$OUT/libfox.a"
run_host "./$OUT/part" "$@"
