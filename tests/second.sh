#!/bin/sh
# The second implementation: by itself, where the processor is the machine's own, and then beside the proved library. A seed
# for the comparison may be given, as an earlier run printed it. Last line: 'N passed, M failed', the sum of both.
set -u
cd "$(dirname "$0")/.." || exit 2
. tests/host.sh
log=$(mktemp) || exit 2
trap 'rm -f "$log" "$log.status"' EXIT

# Where nothing of the library can be found.
alone() {
    check="$s/vectors.c $s/part_vectors.c $s/session_vectors.c $s/tag_vectors.c $s/file_vectors.c $s/check.c $s/aes.c"
    $CC_HOST -std=c11 -O1 -Wall -Wextra -Werror -I$c -o "$OUT/vectors" $check $s/sheet.c $s/part.c $s/session.c $s/file.c $second $helpers ||
        failed_to second "tests/second/vectors.c was not built"
    "./$OUT/vectors" tests/vectors/block.csv tests/vectors/run.csv tests/vectors/tag.csv tests/vectors/files
}

# What fox_check_session is to print is what the plain machine tells of the same calls.
played() {
    listed=crates/fox_check_session
    $CC_HOST -std=c11 -O1 -Wall -Wextra -Werror -I$c -o "$OUT/play" $s/play.c $s/session.c $second $helpers ||
        failed_to second "tests/second/play.c was not built"
    if "./$OUT/play" <$listed/stdin | cmp - $listed/stdout; then
        echo "second: $listed/stdout is what the plain machine tells of its calls"
        echo "1 passed, 0 failed"
    else
        echo "second: $listed/stdout is not what the plain machine tells of its calls: FAILED"
        echo "0 passed, 1 failed"
    fi
}

beside() { # [SEED]
    made second libfox.a
    built second compare tests/beside/*.c $second $guarded "$OUT/libfox.a"
    run_host "./$OUT/compare" "$@"
}

if [ "$PROCESSOR" = "$MACHINE" ]; then
    add "$log" alone
    add "$log" played
fi
add "$log" beside "$@"
close_sum
