# Sourced from the project's folder: for which processor code is made, by what, and how it is run here. PROCESSOR is the
# machine's own, unless the environment names the other one. Sets
#   CC_PLAIN           the C compiler for that processor, which has a linker and other tools beside it
#   CC_HOST, CXX_HOST  the compilers of C and C++ for it, with the words that programs want
#   EMULATOR           what runs a program for it; nothing where the processor is the machine's own
#   OUT                the folder that the library and the programs for it are made in
#   DEBIAN             what Debian's packages for it have behind their names, as in gcc-x86-64-linux-gnu
#   KIT, KIT_TOOLS     the Rattle kit, and its compiler; `rt doc` names a file right in the kit's folder
MACHINE=$(uname -m)
PROCESSOR=${PROCESSOR:-$MACHINE}
export PROCESSOR
guide=$(rt doc 2>/dev/null)
KIT=${guide%/*}
KIT_TOOLS=$KIT/toolchain
EMULATOR='' OUT=build DEBIAN=''

# Programs for an emulator are linked statically, so that it need not know where the libraries for that processor are.
if [ "$PROCESSOR" = "$MACHINE" ]; then
    CC_PLAIN=${CC:-gcc}
    CC_HOST=$CC_PLAIN CXX_HOST=${CXX:-g++}
else
    OUT=build/$PROCESSOR DEBIAN=-$(echo "$PROCESSOR" | tr _ -)-linux-gnu
    CC_PLAIN=$PROCESSOR-linux-gnu-gcc
    CC_HOST="$CC_PLAIN -static" CXX_HOST="$PROCESSOR-linux-gnu-g++ -static"
    for e in "qemu-$PROCESSOR" "qemu-$PROCESSOR-static"; do
        command -v "$e" >/dev/null 2>&1 || continue
        EMULATOR=$e
        break
    done
fi

other_processor() {
    case $MACHINE in
        x86_64) echo aarch64 ;;
        *) echo x86_64 ;;
    esac
}

# Why no program for PROCESSOR can be made and run here, with what would mend it; nothing where one can.
no_programs() {
    if ! command -v "${CC_HOST%% *}" >/dev/null 2>&1; then
        echo "there is no C compiler ${CC_HOST%% *} on the PATH (Debian: gcc$DEBIAN)"
    elif [ "$PROCESSOR" != "$MACHINE" ] && [ -z "$EMULATOR" ]; then
        echo "there is no emulator qemu-$PROCESSOR (Debian: qemu-user)"
    else
        try=$(mktemp -d) || return
        printf '#include <stdio.h>\nint main(void) { return puts("") < 0; }\n' >"$try/try.c"
        { $CC_HOST -o "$try/try" "$try/try.c" && run_host "$try/try"; } >"$try/said" 2>&1 ||
            echo "$CC_HOST makes no program that runs here (Debian: libc6-dev): $(head -n 1 "$try/said")"
        rm -rf "$try"
    fi
}

tool() { # NAME: one of those beside the C compiler, as nm
    $CC_PLAIN -print-prog-name="$1"
}

run_host() { # PROGRAM WORDS..
    if [ -n "$EMULATOR" ]; then "$EMULATOR" "$@"; else "$@"; fi
}

# The words that run a program of Rattle's: the kit's own loader and C library. They go before the program's name.
kit_words() {
    printf '%s\n' "$KIT_TOOLS/lib/ld-linux-x86-64.so.2" --library-path "$KIT_TOOLS/lib"
}

# Whether a file was made since any source of a crate last changed. What rt makes of a crate is in its folder out.
fresh() { # FILE
    [ -f "$1" ] && [ -z "$(find crates crates.txt -name out -prune -o -newer "$1" -print | head -n 1)" ]
}

# A crate's folder out is there before anything is made, so that a crate's folder changes only with what stands in it.
out_folders() {
    for crate in crates/*/; do mkdir -p "${crate}out" || return; done
}

# Whether a line of rt's says no more than what is read, and what is proved.
usual() { # LINE
    case $1 in
        'statements '* | 'library '* | 'crate '* | 'logic '* | logic=proved* | 'axioms '* | 'linked '* | 'checked '*) ;;
        'empty contracts: 0 '* | '== '* | 'rt: chose '* | 'rt: '*': begins with what a check kept in '* | *': proved' | *': proved, may '*) ;;
        *) return 1 ;;
    esac
}

# The last of what rt said besides.
last_said() { # FILE
    while IFS= read -r line; do usual "$line" || printf '%s\n' "$line"; done <"$1" | tail -n 20
}
