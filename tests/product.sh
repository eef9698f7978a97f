#!/bin/sh
# Tests what a C programmer gets: the header, the libraries, the texts, the examples in README.md, the installed files, the
# programs stretch, runfile and display and, on the machine's own processor, what make shows and says. Each check counts one;
# what a missing optional tool makes impossible is said and left out.
# Last line: 'N passed, M failed'.
set -u
cd "$(dirname "$0")/.." || exit 2
. tests/host.sh
LC_ALL=C
export LC_ALL
room=$(mktemp -d) || exit 2
trap 'rm -rf "$room"' EXIT

rm -f "$OUT"/libfox* "$OUT/stretch"
make --no-print-directory >"$room/made" 2>&1 || {
    tail -n 5 "$room/made"
    failed_to product "make failed"
}
strict='-Wall -Wextra -Wpedantic -Wshadow -Wconversion -Werror'
. tests/product/checks.sh
. tests/product/library.sh
. tests/product/installed.sh
. tests/product/stretch.sh
. tests/product/trouble.sh
. tests/product/progress.sh
. tests/product/runfile.sh
. tests/product/display.sh
[ "$PROCESSOR" != "$MACHINE" ] || . tests/product/commands.sh
close_sum
