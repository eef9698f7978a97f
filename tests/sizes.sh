#!/bin/sh
# Says how many bytes of code and constants the libraries have, and a card's program over each archive.
set -u
cd "$(dirname "$0")/.." || exit 2
. tests/host.sh
made sizes libfox.a libfox_card.a
make --no-print-directory -s all
for library in libfox.a libfox_card.a libfox.so; do
    echo "sizes: $library has $(text_of "$OUT/$library") bytes of code and constants"
done
[ "$PROCESSOR" = "$MACHINE" ] || exit 0 # for an emulator programs are linked statically, the C library with them
for library in libfox.a libfox_card.a; do
    $CC_HOST -std=c99 -O2 -Iinclude -o "$OUT/card" tests/product/card.c "$OUT/$library" || exit 1
    echo "sizes: a card's program over $library has $(text_of "$OUT/card")"
done
