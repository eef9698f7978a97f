# Sourced by tests/product.sh: what stretch seals and opens.

key64=00112233445566778899AABBCCDDEEFF counter64=0123456789ABCDEF
key128=00112233445566778899aabbccddeeffffeeddccbbaa99887766554433221100 counter128=0123456789ABCDEFFEDCBA98FFFFFF00
size=200001 last=200000

# What a file is sealed with, as words of stretch; the key of the second is in a file.
(umask 077 && printf '%s\n' "$key128" >"$room/key128")
with64="--cipher 64 --rounds 16 --key $key64 --counter $counter64"
with128="-c 128 -r 12 -k $room/key128 --counter $counter128"

stretch() {
    run_host "./$OUT/stretch" "$@"
}

# In a list of numbers no stretch comes twice, so one that is off by a byte or a piece shows.
seq 1 40000 | head -c "$size" >"$room/plain"
dd if=/dev/zero of="$room/large" bs=1 count=0 seek=5368709120 2>/dev/null
stretch seal --card $with64 "$room/plain" >"$room/sealed64" 2>"$room/error"
stretch seal --card $with128 "$room/plain" >"$room/sealed128" 2>>"$room/error"

opens_whole() {
    cmp "$room/plain" "$room/sealed64" >/dev/null && return 1
    stretch open $with64 "$room/sealed64" | cmp - "$room/plain" && stretch open $with128 "$room/sealed128" | cmp - "$room/plain"
}

seals_alike() { # by the server as by the card
    stretch seal $with64 "$room/plain" | cmp - "$room/sealed64" && stretch seal $with128 "$room/plain" | cmp - "$room/sealed128"
}

over_zeros() { # FROM WORDS..: 16 bytes from there
    first=$1
    shift
    stretch seal --from "$first" --length 16 "$@" "$room/large" 2>"$room/error" | od -An -tx1 | tr -d ' \n'
}

# Over zeros the first block of a run is the sealed counter, and these counters are blocks of vectors of the specification.
seals_vectors() {
    same_text b85d6b766dce952e "$(over_zeros 0 $with64 | head -c 16)" &&
        same_text 45ccb1030f67b768247f530266bc4996 \
            "$(over_zeros 0 -c 128 -r 16 --key "$key128" --counter 0123456789abcdefFEDCBA9876543210)"
}

key_words() { # BYTES: words of stretch for a key of so many
    if [ "$1" -eq 0 ]; then echo --empty-key; else echo "--key $(echo "$key128" | cut -c "1-$(($1 * 2))")"; fi
}

not_sealed() { # NUMBER WHAT WORDS..: one line with the value that is wrong and the library's text, status 1, and no file
    number=$1 what=$2
    shift 2
    stretch seal "$@" -o "$room/refused" "$room/plain" >"$room/found" 2>"$room/error"
    same_text "status 1" "status $?" && [ ! -e "$room/refused" ] && [ ! -s "$room/found" ] &&
        same_text "stretch: $what (refusal $number): $(run_host "$room/texts" "$number")" "$(cat "$room/error")"
}

seals_and_opens() { # WORDS..: without a word, and to the same bytes again
    rm -f "$room/anew"
    stretch seal "$@" -l 1000 -o "$room/anew" "$room/plain" 2>"$room/error" && [ ! -s "$room/error" ] &&
        ! head -c 1000 "$room/plain" | cmp -s - "$room/anew" &&
        stretch open "$@" "$room/anew" | cmp - "$room/expected"
}

# To the byte: 15 are too few, and 16 are enough. Where more is wrong, 13 comes after 3 and before 4.
seals_under_long_keys() {
    head -c 1000 "$room/plain" >"$room/expected"
    for by in "-c 64 -r 16 -n 1" "-c 128 -r 16 -n 1" "--card -c 64 -r 16 -n 1" "--card -c 128 -r 16 -n 1"; do
        for bytes in 0 1 8 15; do
            not_sealed 13 "the key has $bytes bytes" $by $(key_words "$bytes") || return 1
        done
        for bytes in 16 17 32; do
            seals_and_opens $by $(key_words "$bytes") || return 1
        done
    done
    not_sealed 1 "--cipher is 65" -c 65 -r 11 --key 00 --counter 00 && not_sealed 2 "--rounds is 11" -c 64 -r 11 --key 00 -n 1 &&
        not_sealed 3 "the key has 33 bytes" -c 64 -r 16 --key "${key128}00" -n 1 &&
        not_sealed 13 "the key has 15 bytes" -c 64 -r 16 $(key_words 15) --counter 00 &&
        not_sealed 4 "--counter has 1 bytes" -c 64 -r 16 $(key_words 16) --counter 00
}

# The rows of the vectors with data whose keys are too short to seal with; no key is written as -.
short_rows() {
    awk -F, 'NR > 1 && length($3) < 32 && $6 != "" { print $1, $2, $3 == "" ? "-" : $3, $4, $5, $6, $7 }' tests/vectors/run.csv
}

# The sealed bytes stand in a file at their offset, and are opened there without a word.
opens_row() { # CIPHER ROUNDS KEY COUNTER OFFSET PLAIN SEALED
    rm -f "$room/old"
    bytes_of "$7" | dd of="$room/old" bs=1 seek="$5" 2>/dev/null
    bytes_of "$6" >"$room/expected"
    under="--key $3"
    [ "$3" != - ] || under=--empty-key
    for engine in '' --card; do
        stretch open $engine -c "$1" -r "$2" $under --counter "$4" -f "$5" "$room/old" 2>"$room/error" | cmp - "$room/expected" &&
            same_text '' "$(cat "$room/error")" || return 1
    done
}

opens_under_short_keys() {
    short_rows >"$room/rows"
    [ "$(wc -l <"$room/rows")" -ge 30 ] || return 1
    while read -r row; do
        opens_row $row || {
            echo "row: $row"
            return 1
        }
    done <"$room/rows"
}

# The commands that README.md and the man page show for a run under a short key, on one that the second implementation has
# sealed under 4 bytes.
seals_anew() { # COMMAND..: prints them
    anew=$room/seal.anew
    rm -rf "$anew"
    mkdir "$anew"
    "$@" >"$room/commands"
    same_text 5 "$(wc -l <"$room/commands" | tr -d ' ')" || return 1
    bytes_of ED8770C170D97015FBA353185543FEF7656774 >"$anew/scan7.sealed"
    (umask 077 && echo 01234567 >"$anew/old.key")
    program=$PWD/$OUT/stretch
    (
        stretch() { run_host "$program" "$@"; }
        cd "$anew" && . "$room/commands"
    ) >"$room/found" 2>&1
    same_text "the same" "$(cat "$room/found")" && same_text "scan 7: 871.33 m/z" "$(cat "$anew/scan7.raw")" &&
        same_text 19 "$(wc -c <"$anew/scan7.anew" | tr -d ' ')" && ! cmp -s "$anew/scan7.anew" "$anew/scan7.sealed" &&
        same_text "600 600" "$(stat -c %a "$anew/scan7.raw" "$anew/new.key" | tr '\n' ' ' | sed 's/ $//')"
}

page_commands() {
    sed -n '/^\.SH SHORT KEYS$/,/^\.SH WIPING$/p' examples/stretch.1.in | sed -n '/^\.nf$/,/^\.fi$/p' | sed '/^\./d; s/\\-/-/g'
}

sealed_anew_as_shown() {
    seals_anew short_key_commands 1 && seals_anew page_commands && same_text "$(short_key_commands 1)" "$(page_commands)"
}

# A run later on is a run that begins with the counter that is reached there, as worked out by hand: after a first piece,
# and at the end of the longest run. For FOX128 the counter's last word carries into the one before it.
counts_on() {
    by64="-c 64 -r 16 --key $key64" by128="-c 128 -r 12 -k $room/key128"
    same_text "$(over_zeros 0 $by64 --counter 0123456789ABEDEF)" "$(over_zeros 65536 $with64)" &&
        same_text "$(over_zeros 0 $by64 --counter 0123456791ABCDED)" "$(over_zeros 1073741808 $with64)" &&
        same_text "$(over_zeros 0 $by128 --counter 0123456789ABCDEFFEDCBA9900000F00)" "$(over_zeros 65536 $with128)" &&
        same_text "$(over_zeros 0 $by128 --counter 0123456789ABCDEFFEDCBA9903FFFEFF)" "$(over_zeros 1073741808 $with128)"
}

# The counter that a number stands for, as worked out by hand, at the run's beginning and end.
numbers() {
    for triple in 0:00000000 1:00000001 41:00000029 65536:00010000 4294967295:FFFFFFFF; do
        n=${triple%:*} digits=${triple#*:}
        for at in 0 1073741808; do
            same_text "$(over_zeros $at -c 64 -r 16 --key "$key64" --counter "${digits}00000000")" \
                "$(over_zeros $at -c 64 -r 16 --key "$key64" -n "$n")" &&
                same_text "$(over_zeros $at -c 128 -r 12 -k "$room/key128" --counter "0000000000000000${digits}00000000")" \
                    "$(over_zeros $at -c 128 -r 12 -k "$room/key128" --number "$n")" || return 1
        done
    done
}

one_stretch() { # FIRST LAST WORDS..
    first=$1 end=$2
    shift 2
    tail -c "+$((first + 1))" "$room/plain" | head -c "$((end - first + 1))" >"$room/expected"
    stretch open -f "$first" -l "$((end - first + 1))" "$@" >"$room/found" && cmp "$room/expected" "$room/found" && return
    echo "stretch $first to $end"
    return 1
}

# At and around the ends of blocks and of pieces, one byte, the last byte, and all.
stretches='0:0 0:7 7:8 8:15 1:16 15:31 0:65534 0:65535 0:65536 1:65535 65535:65535 65535:65536 65536:65536 65534:65537
    65536:131071 65537:131072 65537:199000 65543:131080 131071:131072 131072:200000 3:199999 100000:199998
    199999:200000 200000:200000'

all_stretches() {
    for pair in $stretches; do
        f=${pair%:*} l=${pair#*:}
        one_stretch "$f" "$l" $with64 "$room/sealed64" && one_stretch "$f" "$l" $with128 "$room/sealed128" || return 1
    done
}

card_stretches() {
    for pair in 0:0 7:8 65535:65536 65530:65550 199990:200000; do
        f=${pair%:*} l=${pair#*:}
        one_stretch "$f" "$l" --card $with64 "$room/sealed64" && one_stretch "$f" "$l" --card $with128 "$room/sealed128" ||
            return 1
    done
}

# From a byte on to the end, from the very end, no bytes, and a file that has none.
ends_and_none() {
    : >"$room/empty"
    for from in 0 1 65536 199999 200001; do
        tail -c "+$((from + 1))" "$room/plain" >"$room/expected"
        stretch open --from "$from" $with64 "$room/sealed64" | cmp - "$room/expected" || return 1
    done
    for words in "seal $with64 $room/empty" "open $with128 $room/empty" "open -f 0 -l 0 $with64 $room/empty" \
        "open -f 77 -l 0 $with64 $room/sealed64"; do
        stretch $words >"$room/found" 2>"$room/error" && same_text 0 "$(wc -c <"$room/found" | tr -d ' ')" || return 1
    done
    stretch seal $with64 -o "$room/empty.sealed" "$room/empty" 2>"$room/error" && [ -f "$room/empty.sealed" ] &&
        [ ! -s "$room/empty.sealed" ]
}

# The key as it may stand in a file or come on standard input: with and without a line's end, of either kind.
key_forms() {
    for form in '%s' '%s\n' '%s\r\n'; do
        (umask 077 && printf "$form" "$key64" >"$room/key.form")
        for words in "-k $room/key.form" "--key-file=$room/key.form" "-k -"; do
            stretch open -c 64 -r 16 $words --counter "$counter64" "$room/sealed64" <"$room/key.form" 2>"$room/error" |
                cmp - "$room/plain" && same_text '' "$(cat "$room/error")" || return 1
        done
    done
}

# Into a new file, which others can read only if they can read the file that is read; nothing comes on standard output, but
# where - is named.
writes_files() {
    for mode in 600 640 644; do
        chmod "$mode" "$room/sealed64" && rm -f "$room/out.file"
        (umask 022 && stretch open $with64 -o "$room/out.file" "$room/sealed64" >"$room/out") &&
            cmp "$room/plain" "$room/out.file" && [ ! -s "$room/out" ] &&
            same_text "$mode" "$(stat -c %a "$room/out.file")" || return 1
    done
    stretch open $with64 --output - "$room/sealed64" | cmp - "$room/plain" && [ ! -e ./- ]
}

engine_called() { # WORDS..
    run_host "$room/stand_in" "$@" $with64 "$room/plain" 2>"$room/error"
}

calls_its_engine() {
    compiled stand_in -Iexamples examples/stretch.c examples/stretch_job.c tests/product/stand_in.c &&
        same_text card "$(engine_called seal --card)" && same_text server "$(engine_called seal)" &&
        same_text card "$(engine_called open --card)" && same_text server "$(engine_called open)"
}

# A size that is kept in 32 bits would come out as 10 bytes for the first.
large_files() {
    dd if=/dev/zero of="$room/odd" bs=1 count=0 seek=4294967306 2>/dev/null || return 1
    same_text 21 "$(stretch open $with64 -l 21 "$room/odd" | wc -c | tr -d ' ')" || return 1
    stretch open $with64 -f 1073676280 -l 65544 "$room/large" >"$room/end" || return 1
    same_text 65544 "$(wc -c <"$room/end" | tr -d ' ')" &&
        stretch open --card $with64 -f 1073741800 -l 24 "$room/large" >"$room/end.card" &&
        tail -c 24 "$room/end" | cmp - "$room/end.card"
}

# Blocks of 16 bytes, a line each. Of a file of zeros sealed they are the sealed counter blocks, which are the same exactly
# where the counter blocks are.
blocks_of() { # FILE
    od -An -v -tx1 -w16 "$1"
}

shared_blocks() { # FILE FILE: how many blocks of the one are in the other
    blocks_of "$1" | sort -u >"$room/blocks.one"
    blocks_of "$2" | sort -u >"$room/blocks.other"
    comm -12 "$room/blocks.one" "$room/blocks.other" | wc -l | tr -d ' '
}

# Two files of zeros are sealed by the commands that --help and README.md show, as they stand there.
followed() { # FILE: where the commands are
    follow=$room/follow
    rm -rf "$follow"
    mkdir "$follow"
    sed -n 's/^ *\((umask 077; od .*\)$/\1/p' "$1" >"$room/commands"
    sed -n 's/^ *\(stretch seal .* scan[12].raw\)$/\1/p' "$1" >>"$room/commands"
    same_text 3 "$(wc -l <"$room/commands" | tr -d ' ')" || return 1
    for name in scan1 scan2; do head -c "$size" /dev/zero >"$follow/$name.raw"; done
    program=$PWD/$OUT/stretch
    (
        stretch() { run_host "$program" "$@"; }
        cd "$follow" && . "$room/commands"
    ) || return 1
    same_text 12501 "$(blocks_of "$follow/scan1.sealed" | sort -u | wc -l | tr -d ' ')" &&
        same_text 0 "$(shared_blocks "$follow/scan1.sealed" "$follow/scan2.sealed")"
}

# And counters that are one apart as numbers, as the names of two nights are, are seen to share all blocks but one.
shares_no_block() {
    stretch --help >"$room/help" && followed "$room/help" && followed README.md || return 1
    head -c "$size" /dev/zero >"$room/zeros"
    for night in 31 32; do
        stretch seal -c 128 -r 16 --key "$key64" --counter "00000000000000004E494748543034$night" -o "$room/night$night" \
            "$room/zeros" 2>"$room/error"
    done
    same_text 12499 "$(shared_blocks "$room/night31" "$room/night32")"
}

check "stretch: what the card sealed, the server opens" opens_whole
check "stretch: the server seals as the card" seals_alike
check "stretch: over zeros come known vectors, for a key in either case" seals_vectors
check "stretch: nothing is sealed under a key of fewer than 16 bytes, and no file made" seals_under_long_keys
check "stretch: what was sealed under such a key is opened, without a word" opens_under_short_keys
check "stretch: it is sealed anew as README.md and the man page show" sealed_anew_as_shown
check "stretch: later bytes are those of the counter that is reached there" counts_on
check "stretch: a run's number stands before the last four bytes of its counter" numbers
check "stretch: stretches by the server" all_stretches
check "stretch: stretches by the card" card_stretches
check "stretch: to the end, no bytes, and an empty file" ends_and_none
check "stretch: the key from a file and from standard input, with and without a line's end" key_forms
check "stretch: into a file" writes_files
check "stretch: --card calls the card engine, and else the server's is called" calls_its_engine
check "stretch: the end of the longest run in files above 4 GiB" large_files
check "stretch: two files sealed as --help and README.md show share no counter block" shares_no_block
