#!/bin/sh
# Fuzzes the bench sheet, the calls of every engine and those on sessions and run files by clang's libFuzzer, with the second
# implementation beside them: sh tests/fuzz.sh [SECONDS] [sheet|calls|session|file]. Without a name all are run, each for a
# fourth of the seconds, 600 in all. SEED=.. in the environment gives the seed that an earlier run printed. FAULT=.. puts
# that fault of tests/fuzz/wrong_*.c into the library. What is found stays in build/fuzz/found; build/fuzz/sheet.fuzzer FILE,
# or that of another name, shows it again.
# The exit status is 1 where anything was found, and 2 where something could not be run.
set -u
cd "$(dirname "$0")/.." || exit 2
unset PROCESSOR
. tests/host.sh
seconds=${1:-600} names=${2:-sheet calls session file} seed=${SEED:-$(date +%s)}
clang=${CLANG:-clang}
t=tests/fuzz libraries=build/fuzz into=build/fuzz${FAULT:+/wrong}
flags="-std=gnu11 -g -O2 -Wall -Wextra -Werror $includes"
flags="$flags -fsanitize=fuzzer,address,undefined -fno-sanitize-recover=all"
# The library allocates nothing, and a search for leaks does not work on every machine.
export ASAN_OPTIONS=detect_leaks=0:quarantine_size_mb=32

stop() { # WHAT
    echo "fuzz: $1"
    exit 2
}

part() { # WHAT sheet|calls|session|file
    case $1-$2 in
        crates-sheet) echo fox_check_probe ;;
        crates-calls)
            sed -n 's/^CALLS = //p' Makefile |
                sed -e 's|$(OUT)/||g' -e 's|\.o||g' -e 's/fox_station_session//' -e 's/fox_station_file//'
            ;;
        crates-session) echo fox_station_session ;;
        crates-file) echo "fox_station_file${FAULT:+ fox_station_server}" ;;
        sources-sheet) echo "$t/sheet.c $t/begin.c $t/exact.c $s/sheet.c $second $c/answers.c" ;;
        sources-calls)
            echo "$t/calls.c $t/begin.c $t/take.c $t/change.c $t/exact.c tests/beside/second_answer.c" \
                "$second $engines $c/answers.c $c/chance.c"
            ;;
        sources-session) echo "$t/session.c $t/begin.c $t/exact.c $s/session.c $c/session_call.c $c/hex.c $c/answers.c" ;;
        sources-file)
            echo "$t/file.c $t/begin.c $t/change_file.c $t/exact.c tests/file/outcome.c $s/file.c $c/file_call.c" \
                "$c/hex.c $c/answers.c $c/chance.c"
            ;;
        plain-session | plain-file) echo "$second" ;;
        wrapped-sheet) echo fox_probe_sheet ;;
        wrapped-calls)
            echo fox_card_open_block fox_server_seal_run fox_server_open_run fox_server_make_tag fox_card_test_tag
            ;;
        wrapped-session)
            echo fox_session_start_sealing fox_session_start_opening fox_session_advance fox_session_move
            ;;
        wrapped-file) echo fox_file_take_up fox_file_read fox_file_skip fox_file_write ;;
        words-sheet) echo "-dict=$t/sheet.dict -max_len=400" ;;
        words-calls) echo "-max_len=256 -len_control=0 -entropic_scale_per_exec_time=1" ;;
        words-session) echo "-max_len=128 -len_control=0 -entropic_scale_per_exec_time=1" ;;
        words-file) echo "-dict=$t/file.dict -max_len=400 -entropic_scale_per_exec_time=1" ;;
    esac
}

fuzzer_or_stop() {
    sh tools/needs.sh || stop "something is missing that it cannot do without"
    command -v "$clang" >/dev/null 2>&1 || stop "clang is missing: there is no $clang on the PATH (Debian: clang)"
    printf '#include <stddef.h>\nint LLVMFuzzerTestOneInput(const char *d, size_t n);\n%s\n' \
        'int LLVMFuzzerTestOneInput(const char *d, size_t n) { return d == NULL && n > 0; }' >"$into/try.c"
    { "$clang" $flags -o "$into/try" "$into/try.c" && "$into/try" -runs=1; } >"$into/try.log" 2>&1 ||
        stop "$clang has no libFuzzer that works here (Debian: libclang-rt-14-dev): $(tail -n 1 "$into/try.log")"
}

# The library's module as Rattle hands it to its compiler, compiled for this processor so that the fuzzer sees its
# branches, and the address sanitizer its reads and writes. The sanitizer looks only at functions that ask for it, so all
# are made to ask.
guarded_library() { # CRATE
    library=$libraries/$1.o
    fresh "$library" && [ -z "$(find tests/fuzz.sh -newer "$library")" ] && return 0
    sh tools/build.sh module "build/$1.bc" "$1" || return 1
    compiler="$KIT_TOOLS/bin/clang --target=$MACHINE-linux-gnu -Wno-override-module"
    $compiler -S -emit-llvm -Xclang -disable-llvm-passes -x ir "build/$1.bc" -o - 2>"target/log/$1.guarded" |
        sed 's/^attributes #[0-9]* = {/& sanitize_address/' >"$libraries/$1.ll"
    grep -q sanitize_address "$libraries/$1.ll" || return 1
    $compiler -O1 -fPIC -fsanitize=address -fsanitize-coverage=inline-8bit-counters,pc-table,trace-cmp \
        -c -x ir "$libraries/$1.ll" -o "$library" 2>>"target/log/$1.guarded"
}

# Besides the fuzzer itself there is one to which the library's branches alone count. What is plain is compiled without
# sanitizers: the second implementation's cipher, where it would take most of the time.
build() { # sheet|calls|session|file
    sources=$(part sources "$1")
    for source in $(part plain "$1"); do
        object=$into/$(basename "$source" .c).o
        "$clang" -std=gnu11 -O2 -Wall -Wextra -Werror $includes -c -o "$object" "$source" || stop "$source was not compiled"
        sources="$sources $object"
    done
    for crate in $(part crates "$1"); do
        guarded_library "$crate" || stop "the library of $crate was not made"
        sources="$sources $library"
    done
    if [ -n "${FAULT:-}" ]; then
        sources="$sources -DFAULT=$FAULT $t/wrong_$1.c"
        for w in $(part wrapped "$1"); do sources="$sources -Wl,--wrap=$w"; done
    fi
    "$clang" $flags -o "$into/$1.fuzzer" $sources || stop "$t/$1.c was not built"
    "$clang" $flags -fno-sanitize-coverage=edge,inline-8bit-counters,pc-table,trace-cmp,indirect-calls,stack-depth \
        -o "$into/$1.edges" $sources || stop "$t/$1.c was not built"
}

seed_sheet() { # FOLDER: sheets of all kinds that are right, but for those that seal with a short key
    pairs=0123456789ABCDEFFEDCBA9876543210
    for cipher in 64 128; do
        block=$pairs
        [ "$cipher" = 128 ] || block=${pairs%????????????????}
        for key in '' 00 "${pairs%??}" "$pairs" "$pairs$pairs"; do
            sheet='cipher=%s\nrounds=%s\nkey=%s\nway=%s\nblock=%s\n'
            printf "$sheet" "$cipher" 12 "$key" seal "$block" >"$1/$cipher.seal.${#key}"
            printf "$sheet" "$cipher" 255 "$key" open "$block" >"$1/$cipher.open.${#key}"
        done
    done
}

# The choices that tests/fuzz/take.h lists, each of a kind and of four bytes that these leave aside.
seed_calls() { # FOLDER: a served call of each verb, taken back by each engine, long runs and messages, and a key of 15 bytes
    n='\000\000\000\000' verbs=$(grep -c "^uint32_t fox_$(engine_names | head -n 1)_" include/fox.h)
    for which in $(seq 0 $((verbs * $(engine_names | wc -l) - 1))); do
        first="\\$(printf %03o "$which")$n"
        for choices in 0.021.020 1.021.020 0.370.020 1.370.020 0.021.360 1.021.360; do
            later=${choices#*.}
            cipher="\\00${choices%%.*}$n" data="\\${later%.*}$n" key="\\${later#*.}$n"
            printf "$first$cipher\\004$n$key\\000$n$data\\000$n\\000$n\\000$n\\000$n%s" \
                0123456789abcdefghijklmnopqrstuvwxyzABCDEF >"$1/$which.$choices"
        done
    done
}

# The setting and calls that tests/fuzz/session_input.h lists: a start, and then advances within a block and over its edge,
# moves to the end and back, a copy, and words that are changed.
seed_setting() { # NAME SETTING
    printf "$2"'\000\000\005\000\000\003\000\000\020\001\000\011\000\000\100' >"$1.advances"
    printf "$2"'\001\004\036\000\000\002\001\005\000\000\000\000\001\002\000\001\000\003\000\000\007' >"$1.end"
    printf "$2"'\000\000\013\003\000\000\101\004\000\000\101\005'"$2"'\000\000\011' >"$1.copy"
    printf "$2"'\000\000\013\006\002\012\000\000\101\001\003\005' >"$1.poked"
    printf "$2"'\000\000\013\007\017\000\000\101\001\003\005' >"$1.shortened"
}

seed_session() { # FOLDER: the three digits are direction, cipher and counter
    for kind in 000 001 010 011 100 101 110 111; do
        later=${kind#?}
        seed_setting "$1/$kind" "\\00${kind%??}\\00${later%?}\\004\\020\\00${later#?}\\376"
    done
}

# The choices that tests/fuzz/file.c lists, and a file of the vectors, with its own tag, which is another key's, and with one
# that is made anew, by a key of 16 bytes and by one of 8, which does not seal; the same file behind a place in it; and lengths
# of scans behind a counter.
seed_file() { # FOLDER
    tail -n +2 tests/vectors/files/LIST.csv | while IFS=, read -r name cipher rounds rest; do
        [ "$name" != 8.run ] || continue
        setting=$(printf '\\%03o\\%03o' "$cipher" "$rounds")
        choices="$setting\\020\\000"
        for kind in 0 1; do
            { printf "\\00$kind$choices" && cat "tests/vectors/files/$name"; } >"$1/file.$kind.$name"
        done
        { printf "\\001$setting\\010\\000" && cat "tests/vectors/files/$name"; } >"$1/old.$name"
        { printf "\\002$choices\\$(printf %03o $((cipher == 64 ? 56 : 73)))\\000\\000\\000\\000\\000" &&
            cat "tests/vectors/files/$name"; } >"$1/place.$name"
        printf "\\003$choices"'0123456701234567\003\000\020\001\002\003\004\005\006\007\010\011' >"$1/lengths.$name"
    done
}

number() { # LOG EXPRESSION: the last number that stands in its place
    sed -n "s/.*$2.*/\\1/p" "$into/$1" | tail -n 1
}

edges() { # LOG
    echo "$(number "$1" ' cov: \([0-9]*\)') of $(number "$1" '(\([0-9]*\) inline 8-bit counters)')"
}

show_found() { # NAME
    grep -a -E "^$1: |ERROR: |runtime error: |Test unit written" "$into/$1.log" | cut -c 1-2000
    echo "fuzz: $1: FOUND something; the log is $into/$1.log"
    found=1
}

show() { # NAME STATUS
    echo "fuzz: $1: $(number "$1.log" 'number_of_executed_units: \([0-9]*\)') executions," \
        "$(edges "$1.log") edges, $(ls "$into/$1" | wc -l) files in the corpus"
    sed -n "s/^answers: /fuzz: $1: /p" "$into/$1.log"
    [ "$2" -eq 0 ] || { show_found "$1" && return; }
    "$into/$1.edges" -runs=0 -artifact_prefix="$into/found/$1-" "$into/$1" "$into/$1.seeds" >"$into/$1.edges.log" 2>&1
    echo "fuzz: $1: the corpus reaches $(edges "$1.edges.log") edges of the library"
    echo "fuzz: $1: nothing found"
}

fuzz() { # NAME SECONDS
    mkdir -p "$into/$1" "$into/$1.seeds"
    "seed_$1" "$into/$1.seeds"
    echo "fuzz: $1: for $2 s with seed $seed"
    "$into/$1.fuzzer" $(part words "$1") -seed="$seed" -max_total_time="$2" -timeout=60 -print_final_stats=1 \
        -artifact_prefix="$into/found/$1-" "$into/$1" "$into/$1.seeds" >"$into/$1.log" 2>&1
    show "$1" $?
}

case $seconds in '' | *[!0-9]*) stop "the seconds are to be a number" ;; esac
case $names in
    'sheet calls session file') seconds=$((seconds / 4)) ;;
    sheet | calls | session | file) ;;
    *) stop "there is no fuzzer named $names" ;;
esac
[ "$seconds" -gt 0 ] || stop "so few seconds leave no time to run"
mkdir -p "$into/found"
found=0
fuzzer_or_stop
for name in $names; do build "$name"; done
for name in $names; do fuzz "$name" "$seconds"; done
exit "$found"
