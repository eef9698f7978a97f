#!/bin/sh
# Says in a second all that is missing of what the project cannot be built and tested without, and the Debian package that
# has it; the exit status is 0 where nothing is. `sh tools/needs.sh optional` says what only some tests want.
set -u
cd "$(dirname "$0")/.." || exit 2
. tools/machine.sh
missing=0

miss() { # WHAT
    echo "missing: $1" >&2
    missing=1
}

wanted() { # COMMAND PACKAGE TESTS
    command -v "$1" >/dev/null 2>&1 || echo "not here: $1 (Debian: $2); $3 will be left out"
}

if [ "${1:-}" = optional ]; then
    wanted "${CXX_HOST%% *}" g++ "the header in C++"
    wanted clang clang "the header by clang"
    wanted pkg-config pkg-config "programs by pkg-config"
    wanted valgrind valgrind "where calls read and write data"
    PROCESSOR=$(other_processor)
    . tools/machine.sh
    said=$(no_programs)
    [ -z "$said" ] || echo "not here: $said; tests of the library for $PROCESSOR will be left out"
    exit
fi
if ! command -v rt >/dev/null 2>&1; then
    miss "the Rattle kit: there is no rt on the PATH"
elif ! said=$(rt version 2>&1); then
    miss "a Rattle kit that works here: $said"
fi
said=$(no_programs)
[ -z "$said" ] || miss "a C compiler: $said"
for tool in awk:mawk cmp:diffutils find:findutils nm:binutils od:coreutils sed:sed sha256sum:coreutils; do
    command -v "${tool%:*}" >/dev/null 2>&1 || miss "${tool%:*} (Debian: ${tool#*:})"
done
if [ "$(id -u)" = 0 ]; then
    command -v setpriv >/dev/null 2>&1 || miss "setpriv (Debian: util-linux), by which rt, as root, runs programs as nobody"
fi
exit "$missing"
