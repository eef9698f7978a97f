#!/bin/sh
# The bench program on the sheet on standard input; its answer, and nothing else, comes on standard output. It is proved and
# built first where that was not done since its source last changed.
set -u
cd "$(dirname "$0")/.." || exit 2
. tools/machine.sh
program=crates/fox_bench/out/fox_bench
fresh "$program" ||
    { sh tools/needs.sh && echo "proving and building fox_bench" && sh tools/prove.sh fox_bench; } </dev/null >&2 || exit 2
exec $(kit_words) "$program"
