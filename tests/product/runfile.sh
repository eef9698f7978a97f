# Sourced by tests/product.sh: examples/runfile.c, which writes run files and opens one scan of them.

night=$room/night
mkdir -p "$night"
printf 0123456789abcdef >"$night/key"
printf fedcba9876543210 >"$night/other.key"
printf 0123456789abcde >"$night/short.key"
printf 1234 >"$night/old.bytes"
printf 'scan 1: 445.12 m/z' >"$night/1"
: >"$night/2"
seq 1 20000 | head -c 65536 >"$night/3"
seq 1 20000 | head -c 65537 >"$night/4"

runfile() {
    run_host "$room/runfile" "$@" 2>"$night/error"
}

says() { # WORDS WORD..: of runfile, which fails with the first words
    words=$1
    shift
    if runfile "$@" >"$night/out"; then
        echo "runfile $* went on"
        return 1
    fi
    cat "$night/error"
    grep -qF -- "$words" "$night/error" && [ ! -s "$night/out" ]
}

# Its lines as they are to be, but for the sealed bytes and the tag.
file_written() {
    runfile write "$night/key" 41 "$night/run" "$night/1" "$night/2" "$night/3" || return 1
    grep -a '^[a-z]*=[0-9A-Za-z]*$' "$night/run" | sed 's/^close=[0-9A-F]\{32\}$/close=/' >"$night/lines"
    same_text "$(printf '%s\n' format=run cipher=128 rounds=16 counter=00000000000000000000002900000000 scan=1 bytes=18 scan=2 \
        bytes=0 scan=3 bytes=65536 scans=3 close=)" "$(cat "$night/lines")"
}

scans_read() {
    for number in 3 1 2; do
        runfile read "$night/key" "$night/run" "$number" >"$night/out" && cmp "$night/$number" "$night/out" || return 1
    done
    says "no scan of this number" read "$night/key" "$night/run" 4
}

# Another key, a byte changed, cut short, no run file at all.
file_refused() {
    cp "$night/run" "$night/changed"
    printf x | dd of="$night/changed" bs=1 seek=100 conv=notrunc 2>/dev/null
    head -c 60000 "$night/run" >"$night/cut"
    says "tag differs" read "$night/other.key" "$night/run" 1 && says "tag differs" read "$night/key" "$night/changed" 1 &&
        says "cut short" read "$night/key" "$night/cut" 1 && says "header is broken" read "$night/key" "$night/1" 1
}

nothing_written() {
    cp "$night/run" "$night/before"
    says "is there already" write "$night/key" 42 "$night/run" "$night/1" && cmp "$night/before" "$night/run" &&
        says "65,536 bytes in a scan" write "$night/key" 42 "$night/new" "$night/1" "$night/4" &&
        says "usage" write "$night/key" 0 "$night/new" "$night/1" &&
        says "cannot be opened" write "$night/key" 42 "$night/new" "$night/none" && [ ! -e "$night/new" ]
}

# To the byte: 15 are too few, and 16, which the key above has, are enough.
key_too_short() {
    for name in old.bytes short.key; do
        says "$(run_host "$room/texts" 13)" write "$night/$name" 42 "$night/new" "$night/1" && [ ! -e "$night/new" ] || return 1
    done
}

# A file of two scans, and an empty one between them, that the second implementation has written under a key of 4 bytes.
old_file() {
    printf '%s\n' format=run cipher=128 rounds=16 counter=00000000000000000000000700000000 scan=1 bytes=10
    printf '\162\061\273\316\210\107\005\231\335\257\nscan=2\nbytes=0\n\nscan=3\nbytes=10\n'
    printf '\125\175\161\312\243\274\007\307\032\212\nscans=3\nclose=4FBAD15629659AEE02C89EF03A9C7081\n'
}

old_file_read() {
    old_file >"$night/old.run"
    for pair in '1:445.12 m/z' 2: '3:871.33 m/z'; do
        runfile read "$night/old.bytes" "$night/old.run" "${pair%%:*}" >"$night/out" &&
            same_text "${pair#*:}" "$(cat "$night/out")" || return 1
    done
    says "no scan of this number" read "$night/old.bytes" "$night/old.run" 4 &&
        says "tag differs" read "$night/short.key" "$night/old.run" 1
}

# The commands that README.md shows for such a file, as they stand there.
written_anew() {
    anew=$night/anew
    mkdir "$anew" && cp "$night/old.run" "$night/old.bytes" "$anew" && short_key_commands 2 >"$night/commands" || return 1
    same_text 5 "$(wc -l <"$night/commands" | tr -d ' ')" || return 1
    (
        runfile() { run_host "$room/runfile" "$@"; }
        cd "$anew" && . "$night/commands"
    ) >"$night/out" 2>&1
    same_text "$(printf 'the same\nthe same\nthe same')" "$(cat "$night/out")" &&
        same_text "445.12 m/z" "$(cat "$anew/scan1.raw")" && ! cmp -s "$anew/old.run" "$anew/new.run"
}

check "examples/runfile.c is compiled without a warning" compiled runfile examples/runfile.c
check "runfile writes a run file of some files" file_written
check "runfile opens each scan alone" scans_read
check "runfile tells of another key, a changed byte, a cut file and another file" file_refused
check "runfile writes no file over, and none that it cannot finish" nothing_written
check "runfile writes no file under a key of fewer than 16 bytes" key_too_short
check "runfile reads a file that was written under such a key" old_file_read
check "and it is written anew as README.md shows" written_anew
