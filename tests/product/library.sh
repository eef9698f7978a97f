# Sourced by tests/product.sh: the header in each language, the archive, the calls, the texts, and README.md's examples.

header_alone() { # COMPILER LANGUAGE STANDARD..: it compiles by itself under each standard, once and twice
    compiler=$1 language=$2
    shift 2
    printf '#include "fox.h"\n' >"$room/once"
    printf '#include "fox.h"\n#include "fox.h"\n' >"$room/twice"
    for standard; do
        for file in once twice; do
            $compiler -std="$standard" $strict -Iinclude -fsyntax-only -x "$language" "$room/$file" || return 1
        done
    done
}

# The C compiler links what the C++ compiler made, since it needs nothing of C++'s own library.
joined() { # COMPILER COMPILE-WORDS FOLDER LINK-WORDS..: two files that include the header make one program, and it works
    compiler=$1 words=$2 folder=$3
    shift 3
    for file in joined joined_other; do
        $compiler $words $strict -c -o "$room/$file.o" "$folder/$file.c" || return 1
    done
    $CC_HOST -o "$room/joined" "$room/joined.o" "$room/joined_other.o" "$@" || return 1
    same_text "$(printf 'B85D6B766DCE952E opened\n%s' "$(run_host "$room/texts" 2)")" "$(run_host "$room/joined")"
}

declared() { # EXPRESSION: the calls of the header, outside its comments, that it matches
    grep -v '^ \*' include/fox.h | grep -o 'fox_[a-z_]*(' | tr -d '(' | grep -E "$1" | sort
}

# It defines those calls and nothing else, so that it cannot clash with a program's own names, and needs nothing of the C library
# but what is named: a card may have none, and a copy whose length is not known is a call of memcpy. Names that begin with _ are
# the compiler's and the linker's, and are not looked at.
symbols() { # LIBRARY EXPRESSION NEEDED WORDS..: those of nm
    library=$OUT/$1 calls=$2 needed=$3
    shift 3
    lister=$(tool nm)
    "$lister" -g "$@" "$library" | awk 'NF == 3 && $2 == "T" { print $3 }' | sort >"$room/defined"
    same_text "$(declared "$calls")" "$(cat "$room/defined")" || return 1
    "$lister" -gu "$@" "$library" | awk '$1 == "U" && $2 !~ /^_/ { sub(/@.*/, "", $2); print $2 }' | sort -u >"$room/wanted"
    same_text '' "$(grep -v -x -F "$(printf '%s\n' $needed)" "$room/wanted")"
}

# The tests' table of engines, its verbs, and those of sessions and run files leave out no call of the header but the few that
# are named here, each of which has a test of its own.
every_call() {
    same_text "$(declared . | grep -v -x -e fox_refusal_text -e fox_counter -e fox_wipe -e fox_wipe_stack)" \
        "$({ run_host "$room/calls" names && sed -n 's/^    \[SESSION_.* = "\([a-z_]*\)",$/fox_\1/p' $c/session_call.c &&
            sed -n 's/^    \[FILE_.* = {"\([a-z_]*\)",.*/fox_\1/p' $c/file_call.c; } | sort)"
}

# A program that keeps to the header is compiled without a word; the compiler tells of an answer that is not looked at, of
# NULL, and of a buffer that is shorter than its length, where it knows how to.
told_by_compiler() { # WORD LINE: the warning, and the line of the program that it is for
    printf '%s\n' '#include "fox.h"' 'uint32_t f(void);' 'uint32_t f(void)' '{' '    uint8_t b[8] = {0}, o[8], s[4] = {0};' \
        '    uint64_t n[2] = {0}, p[3] = {0}, w[FOX_SESSION_WORDS] = {0}, c;' \
        '    (void)s, (void)o, (void)n, (void)p, (void)w, (void)c;' "    $2" '}' >"$room/warned.c"
    $CC_HOST -std=c99 -O2 -Wall -Wextra -Iinclude -c -o "$room/warned.o" "$room/warned.c" 2>"$room/error" || return 1
    cat "$room/error"
    if [ -z "$1" ]; then
        [ ! -s "$room/error" ]
    else
        grep -q -- "\[-W$1" "$room/error"
    fi
}

warned_of() {
    told_by_compiler '' 'return fox_card_seal_block(FOX64, 16, b, 8, b, 8, o, 8);' &&
        told_by_compiler unused-result 'fox_card_seal_block(FOX64, 16, b, 8, b, 8, o, 8); return 0;' &&
        told_by_compiler '' 'return fox_file_read(FOX64, 16, b, 8, b, 8, p, o, 8, &c);' &&
        told_by_compiler '' 'return fox_session_start_opening(FOX64, 16, b, 8, b, 8, w) | fox_session_advance(w, b, 8, o, 8);' &&
        told_by_compiler unused-result 'fox_counter(FOX64, 1, o, 8); return 0;' &&
        told_by_compiler unused-result 'fox_session_move(w, 1); return 0;' &&
        told_by_compiler unused-result 'fox_file_take_up(FOX64, 16, b, 8, b, 8, p); return 0;' &&
        told_by_compiler nonnull 'return fox_file_size(FOX64, 16, n, 2, NULL);' &&
        told_by_compiler nonnull 'return fox_server_open_run(FOX64, 16, NULL, 0, b, 8, 0, b, 8, o, 8);' &&
        told_by_compiler nonnull 'return fox_session_advance(w, NULL, 0, o, 0);' &&
        told_by_compiler nonnull 'return fox_card_test_tag(FOX64, 16, b, 8, b, 8, NULL, 8);' || return 1
    case $($CC_HOST --version) in *clang*) return 0 ;; esac
    told_by_compiler stringop-overflow 'return fox_card_make_tag(FOX64, 16, b, 8, b, 8, s, 8);' &&
        told_by_compiler stringop-overflow 'return fox_server_seal_run(FOX64, 16, b, 8, b, 8, 0, b, 8, s, 8);' &&
        told_by_compiler stringop-overflow 'return fox_counter(FOX64, 1, s, 8);' &&
        told_by_compiler stringop-overflow 'return fox_session_start_sealing(FOX64, 16, b, 8, b, 8, p);' &&
        told_by_compiler stringop-overflow 'return fox_session_start_opening(FOX64, 16, b, 8, b, 8, p);' &&
        told_by_compiler stringop-overflow 'return fox_session_move(p, 1);' &&
        told_by_compiler stringop-overflow 'return fox_session_advance(w, b, 8, s, 8);' &&
        told_by_compiler stringop-overflow 'return fox_file_take_up(FOX64, 16, b, 8, b, 8, n);' &&
        told_by_compiler stringop-overflow 'return fox_file_read(FOX64, 16, b, 8, b, 8, p, s, 8, &c);' &&
        told_by_compiler stringop-overread 'return fox_file_size(FOX64, 16, n, 3, &c);' &&
        told_by_compiler stringop-overread 'return fox_server_seal_run(FOX64, 16, s, 16, b, 8, 0, b, 8, o, 8);'
}

# A card's program has no part of the server in it, neither by the card's library nor, where the linker takes out what
# is not reached, by the whole one.
card_alone() {
    for library in libfox_card.a "libfox.a -Wl,--gc-sections"; do
        $CC_HOST -std=c99 -O1 $strict -Iinclude -o "$room/card" tests/product/card.c "$OUT/"$library || return 1
        same_text "B85D6B766DCE952E sealed and opened" "$(run_host "$room/card")" || return 1
        ! $(tool nm) "$room/card" | grep -E 'fox_(server|session)' || return 1
    done
    text=$(text_of "$OUT/libfox_card.a")
    echo "the card's library has $text bytes of code and constants"
    [ "$text" -lt 40000 ] && [ "$((text * 4))" -lt "$(text_of "$OUT/libfox.a")" ]
}

readme_block() { # MARK NUMBER: the block of README.md that is marked so, of the example of this number: its block for C, or the next after that
    awk -v mark="$1" -v number="$2" '
        $0 == "```c" { seen++ }
        seen == number && !on && $0 == "```" mark { on = 1; next }
        on && $0 == "```" { exit }
        on' README.md
}

# As printed, in a folder with the names that the command has.
readme_example() { # NUMBER NAME: the example of this number in README.md, which its command compiles as NAME.c
    own=$room/readme$1
    mkdir "$own"
    readme_block c "$1" >"$own/$2.c"
    readme_block text "$1" >"$own/shown"
    command=$(sed -n "s/^    \(gcc $2\.c .*\)$/\1/p" README.md)
    [ -s "$own/$2.c" ] && [ -s "$own/shown" ] && [ -n "$command" ] || {
        echo "README.md has no block number $1 marked c, none marked text after it, or no command that compiles $2.c"
        return 1
    }
    if [ "$PROCESSOR" = "$MACHINE" ]; then
        ln -s "$PWD/include" "$PWD/build" "$own"
        (cd "$own" && sh -c "$command") >"$own/out"
    else
        $CC_HOST -std=c99 -Iinclude -o "$own/program" "$own/$2.c" "$OUT/libfox.a" && run_host "$own/program" >"$own/out"
    fi && diff "$own/shown" "$own/out" &&
        $CC_HOST -std=c99 -Wall -Wextra -Wpedantic -Werror -Iinclude -fsyntax-only "$own/$2.c"
}

check "every refusal's text is there, names what is right, and is no other's" compiled_and_right texts tests/product/texts.c $c/tally.c
check "the header alone in C99, C11 and C17" header_alone "$CC_HOST" c c99 c11 c17
check "two files that include the header, in C99" joined "$CC_HOST" "-std=c99 -Iinclude" tests/product "$OUT/libfox.a"
if command -v "${CXX_HOST%% *}" >/dev/null 2>&1; then
    check "the header alone in C++98, C++11 and C++17" header_alone "$CXX_HOST" c++ c++98 c++11 c++17
    check "two files that include the header, in C++98" \
        joined "$CXX_HOST" "-x c++ -std=c++98 -Iinclude" tests/product "$OUT/libfox.a"
else
    left_out product "the header in C++" "there is no ${CXX_HOST%% *} (Debian: g++$DEBIAN)"
fi
if command -v clang >/dev/null 2>&1; then
    check "the header alone in C99 and C17, by clang" header_alone clang c c99 c17
    check "the header alone in C++98 and C++17, by clang" header_alone clang c++ c++98 c++17
else
    left_out product "the header by clang" "there is no clang (Debian: clang)"
fi
check "the archive defines what the header declares, and nothing else" symbols libfox.a . 'memcpy memset'
check "the card's archive defines all calls but the server's, and nothing else, and wants memset alone" \
    symbols libfox_card.a 'fox_(card_|counter|wipe|refusal_text)' memset
check "the shared library defines what the header declares, and nothing else" symbols libfox.so . 'memcpy memset' -D
check "a card's program has nothing of the server's in it" card_alone
check "the compiler tells of an answer not looked at, of NULL, and of a short buffer" warned_of
check "every call on vectors, refusals and limits" compiled_and_right calls tests/product/calls.c $engines
check "every call that the header declares is among those" every_call
check "four threads at once get the bytes that one alone gets" \
    compiled_and_right threads tests/product/threads.c $engines -pthread
check "the C example of README.md is compiled as printed and prints what is shown" readme_example 1 example
check "so is its example of run files" readme_example 2 runfile
check "and its example of sessions" readme_example 3 display
