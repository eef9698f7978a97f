#!/bin/sh
# Builds and runs tests/speed over libfox.a: the library's speed beside that of plain C code, both for the machine's own
# processor. The C code is compiled by clang -O3 where clang makes programs that run here, and by gcc -O3 elsewhere; the
# C variants by every compiler that is here, first by the one that makes the library. What that one makes of them is
# drawn in docs/speed-MACHINE.svg, with the server. With BEFORE=ARCHIVE, which is a libfox_card.a or libfox.a of another
# build for this processor, the card is timed beside that build's card too.
set -u
before=${BEFORE:+$(realpath -m "$BEFORE")}
cd "$(dirname "$0")/.." || exit 2
unset PROCESSOR
. tests/host.sh
[ -z "$before" ] || [ -r "$before" ] || failed_to speed "there is no archive $before"
made speed libfox.a
own=tests/speed
picture=docs/speed-$MACHINE.svg

# Why a compiler of the system's cannot be tried; nothing where it can.
unfit() { # COMPILER
    (
        CC_HOST=$1
        no_programs
    )
}

# Every name that the other build's archive defines gets `before_` in front, so that both builds fit in one program. A build
# whose runs do not say whether they seal or open has one call for both, which stands for the one that opens.
renamed() { # ARCHIVE
    "$(tool nm)" -g --defined-only "$1" |
        awk 'NF == 3 { print $3, "before_" ($3 == "fox_card_run" ? "fox_card_open_run" : $3) }' |
        sort -u >"$OUT/before.names"
    [ -s "$OUT/before.names" ] && "$(tool objcopy)" --redefine-syms="$OUT/before.names" "$1" "$OUT/before.a"
}

# Has a compiler make the C variants, under the name that it has in the program.
compilers='' variants=''
variants_by() { # NAME COMPILER WORDS..
    name=$1
    shift
    "$@" -std=gnu11 -O3 -Wall -Wextra -Werror -DBY="$name" -c -o "$OUT/variants_$name.o" $own/variants.c ||
        failed_to speed "the C variants were not compiled by $name"
    compilers="$compilers COMPILER($name)" variants="$variants $OUT/variants_$name.o"
    echo "speed: $name is $("$1" --version | head -n 1)"
}

# The compiler that makes the library, with the words that the kit hands to it. It has no headers of its own, and takes
# those of the C compiler.
variants_by_kit() {
    set -- "$KIT_TOOLS/bin/clang" --target="$MACHINE-linux-gnu" -fPIC
    [ "$MACHINE" != x86_64 ] || set -- "$@" -march=x86-64
    if said=$(echo 'int kit;' | "$@" -x c -c -o "$OUT/kit.o" - 2>&1); then
        variants_by kit "$@" -isystem "$($CC_PLAIN -print-file-name=include)"
    else
        left_out speed "C by the compiler that makes the library, and the picture" \
            "it does not work: $(echo "$said" | head -n 1)"
    fi
}

processor() {
    name=$(LC_ALL=C lscpu 2>/dev/null | sed -n 's/^Model name: *//p' | head -n 1)
    [ -n "$name" ] || name=$(sed -n 's/^model name[^:]*: *//p' /proc/cpuinfo 2>/dev/null | head -n 1)
    echo "${name:+$name, }$MACHINE"
}

# The picture is put in its place whole, or not at all.
drawn() { # SAID
    if LC_ALL=C awk -v processor="$(processor)" -f $own/picture.awk "$1" >"$picture.new"; then
        mv "$picture.new" "$picture" && echo "speed: drawn in $picture"
    else
        rm -f "$picture.new"
        failed_to speed "the picture was not drawn"
    fi
}

other=
if [ -n "$before" ]; then
    renamed "$before" || failed_to speed "$before is no archive of the library for $MACHINE"
    other="-DBEFORE $OUT/before.a"
fi
variants_by_kit
for compiler in clang gcc; do
    said=$(unfit $compiler)
    if [ -z "$said" ]; then variants_by $compiler $compiler; else left_out speed "C by $compiler" "$said"; fi
done
[ -n "$compilers" ] || failed_to speed "there is no compiler for the C variants"
[ -n "$(unfit clang)" ] || CC_HOST=clang
built speed speed -O3 "-DCOMPILERS=$compilers" $own/speed.c $own/compilers.c $own/files.c $own/pairs.c $own/plain.c \
    $own/sessions.c $variants $engines $c/chance.c "$OUT/libfox.a" $other
echo "speed: on $MACHINE; the C code is compiled by $CC_HOST -O3"
{ "./$OUT/speed"; echo "$?" >"$OUT/speed.status"; } | tee "$OUT/speed.said"
[ "$(cat "$OUT/speed.status")" -eq 0 ] || exit 1
case $compilers in *"(kit)"*) drawn "$OUT/speed.said" ;; esac
