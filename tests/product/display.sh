# Sourced by tests/product.sh: examples/display.c, which opens a sealed run as it arrives, or seals a plain one.

live=$room/live
mkdir -p "$live"
printf 0123456789abcdef >"$live/key"
printf '%s' 30313233343536373839616263646566 >"$live/digits"
seq 1 20000 >"$live/plain"

display() {
    run_host "$room/display" "$@" 2>"$live/error"
}

# A run that stretch has sealed, at once and from the middle of it on.
display_opens() {
    run_host "$OUT/stretch" seal -c 128 -r 16 -k "$live/digits" -n 7 "$live/plain" >"$live/sealed" || return 1
    display open "$live/key" 7 <"$live/sealed" | cmp - "$live/plain" || return 1
    for from in 1 16 4099 70000; do
        tail -c "+$((from + 1))" "$live/plain" >"$live/rest"
        tail -c "+$((from + 1))" "$live/sealed" | display open "$live/key" 7 "$from" | cmp - "$live/rest" || return 1
    done
}

display_seals() {
    display seal "$live/key" 7 <"$live/plain" >"$live/put" && cmp "$live/put" "$live/sealed" || return 1
    tail -c +4100 "$live/sealed" >"$live/rest"
    tail -c +4100 "$live/plain" | display seal "$live/key" 7 4099 >"$live/put" && cmp "$live/put" "$live/rest"
}

# What has arrived is put out while more is to come.
display_at_once() {
    rm -f "$live/in" "$live/out"
    mkfifo "$live/in" "$live/out" || return 1
    display open "$live/key" 7 <"$live/in" >"$live/out" &
    exec 3>"$live/in" 4<"$live/out"
    : >"$live/seen"
    for at in 0 3 6 9 12 15 18; do
        tail -c "+$((at + 1))" "$live/sealed" | head -c 3 >&3
        timeout 60 dd bs=1 count=3 <&4 >>"$live/seen" 2>/dev/null
    done
    exec 3>&- 4<&-
    wait "$!" && head -c 21 "$live/plain" | cmp - "$live/seen"
}

display_says() { # WORDS WORD..: of display, which fails with the first words and puts nothing out
    words=$1
    shift
    if printf 12345678 | display "$@" >"$live/put"; then
        echo "display $* went on"
        return 1
    fi
    cat "$live/error"
    grep -qF -- "$words" "$live/error" && [ ! -s "$live/put" ]
}

display_refuses() {
    head -c 33 "$live/plain" >"$live/long.key"
    display_says "longer than 32 bytes" open "$live/long.key" 7 && display_says "cannot be read" open "$live/none" 7 &&
        display_says "beyond the longest run" open "$live/key" 7 1073741817 &&
        display_says usage open "$live/key" 7 1073741825 && display_says usage open "$live/key" &&
        display_says usage open "$live/key" x && display_says usage close "$live/key" 7 && display_says usage || return 1
    printf 12345678 | display open "$live/key" 7 1073741816 >"$live/put" && same_text 8 "$(wc -c <"$live/put" | tr -d ' ')"
}

# To the byte: 15 are too few, and 16, which the key above has, are enough.
display_seals_under_long_keys() {
    for bytes in 0 1 8 15; do
        head -c "$bytes" "$live/key" >"$live/short.key"
        display_says "$(run_host "$room/texts" 13)" seal "$live/short.key" 7 || return 1
    done
}

# A row of the vectors whose key has 8 bytes, and whose counter block is that of run 0; from its first byte on, and from the
# fourth.
display_opens_under_short_key() {
    bytes_of E6B835110ECB9CE2 >"$live/old.key" && bytes_of C65529735265E1200B01F84E07F18DA523 >"$live/old" &&
        bytes_of 43EF9B4C6B642FB53CD1188CF3433B267B | display open "$live/old.key" 0 | cmp - "$live/old" || return 1
    tail -c +4 "$live/old" >"$live/rest"
    bytes_of 4C6B642FB53CD1188CF3433B267B | display open "$live/old.key" 0 3 | cmp - "$live/rest"
}

check "examples/display.c is compiled without a warning" compiled display examples/display.c
check "display opens what stretch has sealed, from any byte on" display_opens
check "display seals as stretch does, from any byte on" display_seals
check "display puts out what has arrived while more is to come" display_at_once
check "display tells of a wrong key file, of the run's end, and of wrong words" display_refuses
check "display seals nothing under a key of fewer than 16 bytes" display_seals_under_long_keys
check "display opens what was sealed under such a key" display_opens_under_short_key
