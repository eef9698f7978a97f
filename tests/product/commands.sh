# Sourced by tests/product.sh: what make makes anew and shows, and what it says where something is missing.

makes_nothing() {
    make -q || {
        echo "a second make would do:"
        make -n
        return 1
    }
}

# A changed file leads to each step that depends on it.
remakes() { # FILE STEP..
    changed=$1
    shift
    make -n -W "$changed" >"$room/remade"
    for step; do
        grep -q "build.sh $step " "$room/remade" || {
            echo "make with another $changed does not make: $step"
            return 1
        }
    done
}

remade_by_need() {
    remakes crates/fox_station/src/lib.rt crate archive shared program &&
        remakes c/fox_refusal_text.c object archive shared program &&
        remakes c/fox_wipe.c object archive shared program && remakes include/fox.h object archive shared program &&
        remakes examples/stretch.c program && remakes examples/stretch_job.h program
}

# The bench program's answer, and the stretch that was opened.
shows() {
    make run >"$room/run" 2>&1 && grep -qx '    block=B85D6B766DCE952E' "$room/run" &&
        grep -q '^They agree in each of their [1-9]' "$room/run" && return
    tail -n 5 "$room/run"
    return 1
}

# Every command that make run shows, typed as it is shown, writes what came when make run was asked.
shown_work() {
    cp build/sample.opened "$room/opened"
    sed -n 's/^    \$ //p' "$room/run" >"$room/typed"
    same_text 4 "$(wc -l <"$room/typed" | tr -d ' ')" || return 1
    sh -e "$room/typed" >"$room/typed.out" || return 1
    { sheet_answer && cat "$room/opened"; } | cmp - "$room/typed.out"
}

sheet_answer() {
    printf '%s\n' refusal=0 cipher=64 rounds=16 keybits=128 block=B85D6B766DCE952E
}

# A right sheet, one whose key is a byte too short to seal with, a broken one, and no sheet: the answer alone on standard
# output, and exit status 0.
benches() {
    same_text "$(sheet_answer)" "$(make bench <examples/sheet.txt 2>&1)" &&
        same_text "$(printf 'refusal=8\nline=1')" "$(make bench </dev/null 2>&1)" || return 1
    sed '/^key=/s/FF$//' examples/sheet.txt >"$room/short"
    make bench <"$room/short" >"$room/out" && same_text refusal=13 "$(cat "$room/out")" || return 1
    sed 's/rounds=16/rounds=011/' examples/sheet.txt >"$room/broken"
    make bench <"$room/broken" >"$room/out" && same_text "$(printf 'refusal=8\nline=2')" "$(cat "$room/out")"
}

# Every command of this machine but these is on the PATH.
without() { # NAME..
    rm -rf "$room/bare"
    mkdir "$room/bare"
    for folder in $(echo "$PATH" | tr : ' '); do
        ln -s "$folder"/* "$room/bare" 2>/dev/null
    done
    for name; do rm -f "$room/bare/$name"; done
}

# It ends in some seconds with these words, and nothing was proved or made.
says_missing() { # TEXT WORDS..: those of make
    text=$1
    shift
    : >"$room/before"
    since=$(date +%s)
    if PATH="$room/bare" make "$@" </dev/null >"$room/error" 2>&1; then
        echo "make $* went on"
        return 1
    fi
    took=$(($(date +%s) - since))
    cat "$room/error"
    [ "$took" -le 5 ] || {
        echo "make $* took $took s to say so"
        return 1
    }
    grep -qF -- "$text" "$room/error" || return 1
    same_text '' "$(find target/log "$OUT" crates/*/out -maxdepth 1 -newer "$room/before" \( -name '*.[ao]' -o -name '*.said' \))"
}

missing() { # TEXT NAME..: the commands that are missing
    text=$1
    shift
    without "$@"
    for words in run test host vectors speed count "-B all"; do
        says_missing "$text" $words || return 1
    done
    same_text "0 passed, 1 failed" "$(PATH="$room/bare" sh tests/gate.sh 2>&1 | tail -n 1)"
}

cannot_compile() {
    without "$CC_PLAIN"
    printf '#!/bin/sh\necho "stdio.h: No such file" >&2\nexit 1\n' >"$room/bare/$CC_PLAIN"
    chmod +x "$room/bare/$CC_PLAIN"
    says_missing "$CC_PLAIN makes no program that runs here (Debian: libc6-dev): stdio.h" run
}

# What only some tests want is told of at once too, by name.
optional_told() {
    without g++ pkg-config clang "$(other_processor)-linux-gnu-gcc"
    PATH="$room/bare" sh tools/needs.sh optional >"$room/out" || return 1
    cat "$room/out"
    for words in "g++ (Debian: g++)" "pkg-config (Debian: pkg-config)" "clang (Debian: clang)" \
        "$(other_processor)-linux-gnu-gcc on the PATH (Debian: gcc-$(other_processor | tr _ -)-linux-gnu)"; do
        grep -qF "$words" "$room/out" || return 1
    done
}

# Two small crates, of which the second is not proved: a sum that can wrap.
shows_proving() {
    try=$room/proving
    mkdir -p "$try/crates/first/src" "$try/crates/then/src"
    cp -r tools "$try"
    printf 'first:\nthen: first\n' >"$try/crates.txt"
    printf '#![tactic(auto)]\n\npub fn same(x: u32) -> u32 {\n    x\n}\n' >"$try/crates/first/src/lib.rt"
    printf '#![tactic(auto)]\n\npub fn next(x: u32) -> u32 {\n    first::same(x) + 1\n}\n' >"$try/crates/then/src/lib.rt"
    if sh "$try/tools/prove.sh" then >"$room/out" 2>&1; then
        echo "it went on"
        return 1
    fi
    cat "$room/out"
    grep -q '^    proving first, 1 of 2, 0 min [0-9]* s so far$' "$room/out" &&
        grep -q '^    proving then, 2 of 2, 0 min [0-9]* s so far$' "$room/out" && grep -q 'then NOT PROVED' "$room/out"
}

# Where packages cannot be installed, .ci/run shows what was said and goes on; apt-get and make are stand-ins.
ci_shows_why() {
    without g++ apt-get make
    printf '#!/bin/sh\necho "E: no such archive"\nexit 100\n' >"$room/bare/apt-get"
    printf '#!/bin/sh\necho "1 passed, 0 failed"\n' >"$room/bare/make"
    chmod +x "$room/bare/apt-get" "$room/bare/make"
    PATH="$room/bare" sh .ci/run >"$room/out" 2>&1 || return 1
    cat "$room/out"
    grep -q '^could not be installed: g++' "$room/out" && grep -qx '    E: no such archive' "$room/out" &&
        same_text "1 passed, 0 failed" "$(tail -n 1 "$room/out")"
}

check "a second make does nothing" makes_nothing
check "a changed file is made anew, with all that stands on it" remade_by_need
check "make run shows the main job and ends well" shows
check "every command that make run shows works as it is shown" shown_work
check "make bench: the answer alone, and exit status 0" benches
check "without the Rattle kit it is said at once" missing "the Rattle kit: there is no rt on the PATH" rt
check "without a C compiler it is said at once" missing "there is no C compiler $CC_PLAIN on the PATH (Debian: gcc)" "$CC_PLAIN"
check "with a C compiler that makes no program it is said at once" cannot_compile
check "what only some tests want is said at once" optional_told
check "while crates are proved it is said which, how many of how many, and how long so far" shows_proving
check "where packages cannot be installed .ci/run shows what was said" ci_shows_why
