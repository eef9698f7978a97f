# Sourced by tests/product.sh: what make installs and takes away, and programs made from the installed files alone.

version=$(sed -n 's/^#define FOX_VERSION "\(.*\)"$/\1/p' include/fox.h) soname=$(sed -n 's/^SONAME = //p' Makefile)

# Installed under a mask that would shut others out.
installs() {
    (umask 077 && make install "PREFIX=$room/prefix") || return 1
    expected="$(printf '%s\n' ./include/fox.h ./lib/libfox.a "./lib/libfox.so.$version" ./lib/libfox_card.a \
        ./lib/pkgconfig/fox.pc ./lib/pkgconfig/fox_card.pc ./share/man/man1/stretch.1)"
    same_text "$expected" "$(cd "$room/prefix" && find . -type f -perm 644 | sort)" &&
        same_text ./bin/stretch "$(cd "$room/prefix" && find . -type f -perm 755)" &&
        same_text "8" "$(find "$room/prefix" -type d -perm 755 | wc -l | tr -d ' ')" &&
        same_text "libfox.so.$version" "$(readlink "$room/prefix/lib/$soname")" &&
        same_text "$soname" "$(readlink "$room/prefix/lib/libfox.so")" || return 1
    for file in libfox.a libfox_card.a "libfox.so.$version"; do
        cmp "$OUT/$file" "$room/prefix/lib/$file" || return 1
    done
    cmp include/fox.h "$room/prefix/include/fox.h" && cmp "$OUT/stretch" "$room/prefix/bin/stretch"
}

# The program by its installed name, and its page as man sets it, with no complaint of its maker.
installs_stretch() {
    same_text "stretch $version" "$(run_host "$room/prefix/bin/stretch" --version)" &&
        ! grep '@' "$room/prefix/share/man/man1/stretch.1" || return 1
    command -v groff >/dev/null 2>&1 || return 0
    groff -man -Tascii -ww "$room/prefix/share/man/man1/stretch.1" >"$room/page" 2>"$room/error"
    same_text '' "$(cat "$room/error")" && grep -q "stretch $version" "$room/page"
}

# The flags that a file for pkg-config asks for, taken out of it by hand.
flags_by_sed() { # NAME
    file=$room/prefix/lib/pkgconfig/$1.pc
    prefix=$(sed -n 's/^prefix=//p' "$file")
    sed -n -e 's/^Cflags: //p' -e 's/^Libs: //p' "$file" |
        sed -e "s|\${includedir}|$prefix/include|" -e "s|\${libdir}|$prefix/lib|" | tr '\n' ' '
}

flags_by_pkg_config() { # NAME
    PKG_CONFIG_PATH='' PKG_CONFIG_LIBDIR="$room/prefix/lib/pkgconfig" pkg-config --cflags --libs "$1"
}

# Away from the repository, so that nothing but the installed files is there. Where both kinds of library are found, the
# linker takes the shared one unless it is told otherwise.
builds_by() ( # COMMAND archive|shared: the command prints the flags
    flags=$("$1" fox) && card_flags=$("$1" fox_card) || return 1
    mkdir -p "$room/away"
    cp tests/product/joined.c tests/product/joined_other.c tests/product/card.c "$room/away"
    cd "$room/away" || return 1
    if [ "$2" = archive ]; then
        words=$flags
        [ "$PROCESSOR" != "$MACHINE" ] || words="-Wl,-Bstatic $flags -Wl,-Bdynamic"
        joined "$CC_HOST" "-std=c99 $flags" . $words && needs_shared '' &&
            $CC_HOST -std=c99 $strict -o "$room/card" card.c $card_flags &&
            same_text "B85D6B766DCE952E sealed and opened" "$(run_host "$room/card")"
    else
        export LD_LIBRARY_PATH="$room/prefix/lib"
        joined "$CC_HOST" "-std=c99 $flags" . $flags && needs_shared "$soname"
    fi
)

needs_shared() { # SONAME: that one of ours, or none
    same_text "$1" "$($(tool objdump) -p "$room/joined" | awk '$1 == "NEEDED" && /fox/ { print $2 }')"
}

# Programs for an emulator are linked statically, so the shared library is tried on the machine's own processor alone.
builds_from_both() { # WORDS COMMAND
    check "a program from the installed archives, by $1" builds_by "$2" archive
    [ "$PROCESSOR" != "$MACHINE" ] || check "a program from the installed shared library, by $1" builds_by "$2" shared
}

says_its_version() {
    [ -n "$version" ] || return 1
    for file in fox fox_card; do
        same_text "$version" "$(sed -n 's/^Version: //p' "$room/prefix/lib/pkgconfig/$file.pc")" || return 1
    done
    # The header is the one place where it stands.
    same_text include/fox.h "$(grep -rlF "$version" Makefile README.md *.in c crates.txt examples include tests tools docs/[!L]*)" || return 1
    said=$($(tool objdump) -p "$OUT/libfox.so" | awk '$1 == "SONAME" { print $2 }')
    same_text "$soname" "$said" && grep -qF "ask for as \`$soname\`" README.md
}

stages() {
    make install "DESTDIR=$room/stage" PREFIX=/opt/fox || return 1
    same_text "prefix=/opt/fox" "$(grep '^prefix=' "$room/stage/opt/fox/lib/pkgconfig/fox.pc")" &&
        [ -f "$room/stage/opt/fox/lib/libfox.a" ] && [ -f "$room/stage/opt/fox/lib/libfox.so" ] &&
        [ -f "$room/stage/opt/fox/include/fox.h" ]
}

uninstalls() {
    echo kept >"$room/prefix/lib/other"
    make uninstall "PREFIX=$room/prefix" && make uninstall "DESTDIR=$room/stage" PREFIX=/opt/fox || return 1
    same_text "$room/prefix/lib/other" "$(find "$room/prefix" "$room/stage" ! -type d)" &&
        make uninstall "PREFIX=$room/nowhere" && [ ! -e "$room/nowhere" ]
}

check "make install: the libraries, the header, stretch and the files for pkg-config, readable by all" installs
check "make install: stretch runs and has its page" installs_stretch
if command -v pkg-config >/dev/null 2>&1; then
    builds_from_both pkg-config flags_by_pkg_config
else
    left_out product "programs by pkg-config" "there is none (Debian: pkg-config)"
fi
builds_from_both "the flags in the files for it" flags_by_sed
check "the files for pkg-config say the version, and the shared library its soname, as README.md does" says_its_version
check "make install below DESTDIR, which fox.pc does not name" stages
check "make uninstall leaves none of its files, and all others, and does nothing where there are none" uninstalls
