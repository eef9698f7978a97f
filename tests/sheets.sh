#!/bin/sh
# Runs the bench program on sheets, right and broken, and holds every byte that it prints to the second implementation.
# A seed may be given, as an earlier run printed it. Last line: 'N passed, M failed'.
set -u
cd "$(dirname "$0")/.." || exit 2
. tests/host.sh

sh tools/bench.sh <examples/sheet.txt >target/log/fox_bench.sheets ||
    failed_to sheets "the bench program was not built or does not run"
built sheets sheets tests/sheets/*.c $s/sheet.c $second $helpers
"./$OUT/sheets" "${1:--}" $(kit_words) crates/fox_bench/out/fox_bench
