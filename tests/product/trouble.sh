# Sourced by tests/product.sh after stretch.sh: what stretch says and does where it cannot serve.

# One line that begins with the program's name and has these words, that exit status, and nothing on standard output.
says() { # STATUS TEXT WORDS..
    asked=$1 text=$2
    shift 2
    timeout 20 $EMULATOR "./$OUT/stretch" "$@" >"$room/out" 2>"$room/error" </dev/null
    told "$asked" "$text" "$?" && same_text 1 "$(wc -l <"$room/error" | tr -d ' ')"
}

told() { # STATUS TEXT FOUND-STATUS
    cat "$room/error"
    same_text "exit status $1" "exit status $3" || return 1
    [ ! -s "$room/out" ] || {
        echo "bytes came on standard output"
        return 1
    }
    grep '^stretch: ' "$room/error" | grep -qF -- "$2" || {
        echo "no message has: $2"
        return 1
    }
}

refuses() { # NUMBER WHAT WORDS..: the value that is wrong, and the library's own text
    number=$1 what=$2
    shift 2
    says 1 "$what (refusal $number): $(run_host "$room/texts" "$number")" open "$@" "$room/plain"
}

refuses_values() {
    long=$key64$key64 k="--key $key64" n="-n 7"
    refuses 1 "--cipher is 65" -c 65 -r 16 $k $n && refuses 1 "--cipher is 0" --card -c 0 -r 11 $k --counter 00 &&
        refuses 2 "--rounds is 11" -c 64 -r 11 $k $n && refuses 2 "--rounds is 256" -c 64 -r 256 --key "${long}00" $n &&
        refuses 3 "the key has 33 bytes" -c 64 -r 16 --key "${long}00" $n &&
        refuses 3 "the key has 96 bytes" -c 128 -r 16 --key "$long$long$long" --counter '' &&
        refuses 4 "--counter has 16 bytes" -c 64 -r 16 $k --counter "$counter128" &&
        refuses 4 "--counter has 8 bytes" --card -c 128 -r 16 $k --counter "$counter64" &&
        refuses 4 "--counter has 0 bytes" -c 64 -r 16 $k --counter ''
}

# A stretch of which only the end is too far, too, and numbers that come out small when cut to 32 bits.
refuses_the_end() {
    end_text=$(run_host "$room/texts" 7)
    for triple in 0:1073741825 1073741824:1 1073676000:65825 4294967301:10 5:4294967310; do
        from=${triple%:*} length=${triple#*:}
        says 1 "the stretch ends at byte $((from + length)) (refusal 7): $end_text" open $with64 -f "$from" -l "$length" \
            "$room/large" || return 1
    done
    says 1 "$room/large has 5368709120 bytes (refusal 7): $end_text" open $with64 "$room/large"
}

wrong_hex() {
    by="-c 64 -r 16" k="--key $key64"
    says 2 "digit 7 of --key is 'x', and should be a hex digit" open $by --key 001122x344 -n 1 "$room/plain" &&
        says 2 "digit 1 of --key is a blank" open $by --key ' 0' -n 1 "$room/plain" &&
        says 2 "digit 4 of --key is 'g'" open $by --key 001g -n 1 "$room/plain" &&
        says 2 "digit 2 of --counter is 'x'" open $by $k --counter 0x23456789ABCDEF "$room/plain" &&
        says 2 "digit 3 of --counter is the byte C3" open $by $k --counter 00é0 "$room/plain" &&
        says 2 "--key has 3 hex digits, an odd number" open $by --key 001 -n 1 "$room/plain" &&
        says 2 "--counter has 15 hex digits" open $by $k --counter 0123456789ABCDE "$room/plain" &&
        says 2 "--key has more than 256 hex digits; a key has at most 64" \
            open $by --key "$(printf '%0258d' 0)" -n 1 "$room/plain"
}

wrong_numbers() {
    rest="--key $key64 --counter $counter64"
    says 2 "--cipher is 'fox', and should be 64 or 128" open -c fox -r 16 $rest "$room/plain" &&
        says 2 "--cipher is '4294967360', and should be 64 or 128" open -c 4294967360 -r 16 $rest "$room/plain" &&
        says 2 "--rounds is '', and should be 12 to 255" open -c 64 -r '' $rest "$room/plain" &&
        says 2 "--rounds is '4294967312', and should be 12 to 255" open -c 64 -r 4294967312 $rest "$room/plain" &&
        says 2 "--number is '4294967296', and should be 0 to 4294967295" \
            open -c 64 -r 16 --key "$key64" -n 4294967296 "$room/plain" &&
        says 2 "--number is '0x1'" open -c 64 -r 16 --key "$key64" -n 0x1 "$room/plain" &&
        says 2 "--from is '-1', and should be 0 to 1073741824" open $with64 --from=-1 "$room/plain" &&
        says 2 "--from is '1e3'" open $with64 -f 1e3 "$room/plain" && says 2 "--length is '9 '" open $with64 -l '9 ' "$room/plain" &&
        says 2 "--length is '18446744073709551616'" open $with64 -l 18446744073709551616 "$room/plain"
}

wrong_words() {
    says 2 "the first word is '', and should be seal or open" &&
        says 2 "the first word is 'close', and should be seal or open" close $with64 "$room/plain" &&
        says 2 "the first word is '--card', and should be seal or open" --card seal $with64 "$room/plain" &&
        says 2 "--cipher is missing: give 64 or 128" seal -r 16 -k - -n 1 "$room/plain" &&
        says 2 "--rounds is missing: give 12 to 255" seal -c 64 -k - -n 1 "$room/plain" &&
        says 2 "0 of --key-file, --key and --empty-key were given" seal -c 64 -r 16 -n 1 "$room/plain" &&
        says 2 "2 of --key-file, --key and --empty-key were given" seal -c 64 -r 16 -k - --empty-key -n 1 "$room/plain" &&
        says 2 "0 of --number and --counter were given" seal -c 64 -r 16 -k - "$room/plain" &&
        says 2 "2 of --number and --counter were given" seal $with64 -n 1 "$room/plain" &&
        says 2 "0 files were named, and it is to be one" seal $with64 && says 2 "2 files were named" seal $with64 a b &&
        says 2 "--from was given twice" seal $with64 -f 1 --from=2 a && says 2 "--fast is no option" seal --fast $with64 a &&
        says 2 "-x is no option" seal -x $with64 a && says 2 "--output wants a value after it" seal $with64 a -o &&
        says 2 "--card takes no value" seal $with64 --card=yes a && says 2 "--c is no option, or short for more" seal --c=1 a
}

# A variable of the shell that is not set, without quotes around it and with them.
unset_words() {
    says 2 "--output has an option where its value should be" seal $with64 -o ${not_set:-} --card "$room/plain" &&
        says 2 "--cipher has an option where its value should be" seal -c ${not_set:-} -r 16 -k - -n 1 "$room/plain" &&
        says 2 "--key-file is empty, and should name a file" seal -c 64 -r 16 -k "${not_set:-}" -n 1 "$room/plain" &&
        says 2 "--output is empty" seal $with64 -o "${not_set:-}" "$room/plain" && says 2 "FILE is empty" seal $with64 "${not_set:-}"
}

# Of a key that stands among wrong words nothing is shown.
shows_no_key() {
    for words in "seal --Key=$key64 -n 1 a" "seal --key $key64 -\303 a" "seal --key $key64 -y a" "--key=$key64 seal a" \
        "seal --key $key64 -c" "seal --key $key64 --key $key64" "seal -c 64 -r 16 --key ${key64}x -n 1 a"; do
        says 2 "" $(printf -- "$words") || return 1
        ! grep 00112233445566778899 "$room/error" || return 1
    done
}

# From an unset variable of the shell, as a word, as a file, and on standard input.
refuses_empty_keys() {
    : >"$room/none.key" && printf '\n' >"$room/line.key" && chmod 600 "$room/none.key" "$room/line.key" || return 1
    says 2 "--key is empty (is a variable of the shell not set?); --empty-key takes the key of 0 bytes" \
        seal -c 64 -r 16 --key "${not_set:-}" -n 1 "$room/plain" &&
        says 2 "$room/none.key is empty" seal -c 64 -r 16 -k "$room/none.key" -n 1 "$room/plain" &&
        says 2 "$room/line.key is empty" seal -c 64 -r 16 -k "$room/line.key" -n 1 "$room/plain" &&
        says 2 "the key on standard input is empty" seal -c 64 -r 16 -k - -n 1 "$room/plain"
}

wrong_key_files() {
    (umask 077 && printf '%s\n%s\n' "$key64" "$key64" >"$room/two.key" && printf '%01000d\n' 0 >"$room/long.key")
    says 1 "the key file $room/no.key cannot be opened: No such file" seal -c 64 -r 16 -k "$room/no.key" -n 1 "$room/plain" &&
        says 1 "$room cannot be read: Is a directory" seal -c 64 -r 16 -k "$room" -n 1 "$room/plain" &&
        says 2 "digit 33 of $room/two.key is a line feed, and should be a hex digit" seal -c 64 -r 16 -k "$room/two.key" -n 1 "$room/plain" &&
        says 2 "$room/long.key has more than 256 hex digits" seal -c 64 -r 16 -k "$room/long.key" -n 1 "$room/plain"
}

warns() { # TEXT WORDS..: one line, the work is done, and no warning where the text is empty
    text=$1
    shift
    stretch "$@" >"$room/out" 2>"$room/error" || return 1
    cat "$room/error"
    [ -s "$room/out" ] && grep -cF -- "stretch: warning: $text" "$room/error" >"$room/times"
    same_text "$([ -z "$text" ] && echo 0 || echo 1)" "$(wc -l <"$room/error" | tr -d ' ')" &&
        { [ -z "$text" ] || same_text 1 "$(cat "$room/times")"; }
}

# A key's file that others can reach; and where it seals, what makes that weak, or leaves bytes that open at one place alone.
warnings() {
    cp "$room/key128" "$room/shown.key"
    for mode in 644 640 604 602; do
        chmod "$mode" "$room/shown.key"
        warns "$room/shown.key can be read or changed by others: its mode is $mode, and should be 600" \
            open -c 128 -r 12 -k "$room/shown.key" --counter "$counter128" "$room/sealed128" || return 1
    done
    for mode in 600 400; do
        chmod "$mode" "$room/shown.key"
        warns '' open -c 128 -r 12 -k "$room/shown.key" --counter "$counter128" "$room/sealed128" || return 1
    done
    warns "the last four bytes of --counter should be zero" seal $with64 "$room/plain" && warns '' open $with64 "$room/plain" &&
        warns "--rounds is 15, and should be 16 or more" seal -c 64 -r 15 --key "$key64" -n 1 "$room/plain" &&
        warns "bytes sealed from byte 8 on open only there" seal -c 64 -r 16 --key "$key64" -n 1 -f 8 "$room/plain" &&
        warns '' open -c 64 -r 12 --key 00 -n 1 -f 8 "$room/plain" &&
        warns '' seal -c 64 -r 16 --key "$key64" --counter 0123456700000000 "$room/plain" &&
        warns '' seal -c 64 -r 16 --key "$key64" -n 4294967295 "$room/plain"
}

# The help, the man page and the program's own list have the same options, and the help says what a user has to know.
helps() {
    for word in --help -h; do
        stretch $word >"$room/help" 2>"$room/error" && [ ! -s "$room/error" ] || return 1
        stretch seal $word | cmp - "$room/help" || return 1
    done
    sed -n 's/^    \[[A-Z_]*\] = {"\([a-z-]*\)", .*/--\1/p' examples/stretch_job.c | sort >"$room/known"
    sed -n 's/^  \(-[a-z], \)\{0,1\} *\(--[a-z-]*\) .*/\2/p' "$room/help" | sort >"$room/helped"
    sed -n 's/\\-/-/g; s/^\.BR\{0,1\} \(-[a-z] ", " \)\{0,1\}\(--[a-z-]*\).*/\2/p' examples/stretch.1.in | sort -u >"$room/manned"
    same_text "$(cat "$room/known")" "$(cat "$room/helped")" && same_text "$(cat "$room/known")" "$(cat "$room/manned")" || return 1
    for file in "$room/help" examples/stretch.1.in README.md include/fox.h; do
        tr -s '\n *' ' ' <"$file" >"$room/flat"
        for words in 'ach run under one key another value in the bytes before the last four, and set the last four to zero' 'GiB'; do
            grep -qF -- "$words" "$room/flat" || {
                echo "$file does not say: $words"
                return 1
            }
        done
    done
    for words in 'can see it' 'is not noticed when a file is opened' 'exit status' 'only four such bytes'; do
        tr -s '\n ' ' ' <"$room/help" | grep -qF -- "$words" || return 1
    done
    same_text "stretch $version" "$(stretch --version)" && same_text "stretch $version" "$(stretch open --version)" || return 1
    : >"$room/out"
    stretch --help 2>"$room/error" >/dev/full
    told 1 "standard output cannot be written: No space" "$?"
}

# As root every file can be read, so there the last is left out.
wrong_files() {
    mkfifo "$room/pipe"
    says 1 "$room/none cannot be opened: No such file" open $with64 "$room/none" &&
        says 1 "$room is a directory" open $with64 "$room" && says 1 "is a pipe or device" open $with64 "$room/pipe" &&
        says 1 "is a pipe or device" open $with64 /dev/zero &&
        says 1 "it has 0 bytes from byte 0 on, and --length is 1" open $with64 -l 1 "$room/empty" &&
        says 1 "it has $size bytes, and --from is $((size + 1))" open $with64 -f $((size + 1)) "$room/plain" &&
        says 1 "it has 1 bytes from byte $last on, and --length is 2" open $with64 -f "$last" -l 2 "$room/plain" &&
        says 1 "--length is 18446744073709551615" open $with64 -f 3 -l 18446744073709551615 "$room/plain" || return 1
    [ "$(id -u)" -ne 0 ] || return 0
    : >"$room/shut" && chmod 0 "$room/shut" && says 1 "cannot be opened: Permission denied" open $with64 "$room/shut"
}

# Once a byte has come, stretch has looked at the file's length; what a pipe does not take of 1 MB it has not read yet.
shrinking_file() {
    head -c 1000000 /dev/zero >"$room/shrinking"
    {
        stretch open $with64 "$room/shrinking" 2>"$room/error"
        echo "$?" >"$room/status"
    } | {
        head -c 1 >/dev/null
        : >"$room/shrinking"
        cat >/dev/null
    }
    : >"$room/out"
    told 1 "became shorter while it was read" "$(cat "$room/status")"
}

# One that is still written to, while stretch waits for its reader.
growing_file() {
    head -c 1000000 /dev/zero >"$room/growing"
    {
        stretch seal -c 64 -r 16 --key "$key64" -n 1 "$room/growing" 2>"$room/error"
        echo "$?" >"$room/status"
    } | {
        head -c 1 >/dev/null
        echo more >>"$room/growing"
        cat >/dev/null
    }
    : >"$room/out"
    told 1 "became longer while it was read" "$(cat "$room/status")"
}

# A device that is full, a pipe whose reader has gone, no standard output at all, and the very file that is read.
wrong_output() {
    : >"$room/out"
    stretch open $with64 -l 10 "$room/plain" 2>"$room/error" >/dev/full
    told 1 "standard output cannot be written: No space" "$?" || return 1
    { stretch open $with64 "$room/plain" 2>"$room/error"; echo "$?" >"$room/status"; } | head -c 1 >/dev/null
    told 1 "standard output cannot be written: Broken pipe" "$(cat "$room/status")" || return 1
    stretch open $with64 -l 10 "$room/plain" 2>"$room/error" >&-
    told 1 "standard output cannot be written: Bad file" "$?" || return 1
    cp "$room/plain" "$room/both"
    stretch open $with64 "$room/both" 2>"$room/error" >>"$room/both"
    told 1 "standard output is the file that is read, $room/both" "$?" && cmp "$room/both" "$room/plain"
}

# No file is written over: the one that is read, the key's, any other, by its name or by a link; a refused command makes none.
wrong_output_files() {
    cp "$room/plain" "$room/kept" && cp "$room/key128" "$room/kept.key" && ln -s kept "$room/kept.link" &&
        ln "$room/kept" "$room/kept.hard" && ln -s nowhere "$room/no.link" || return 1
    for name in kept kept.link kept.hard kept.key no.link; do
        says 1 "$room/$name is there already: name another file" \
            open -c 128 -r 12 -k "$room/kept.key" --counter "$counter128" -o "$room/$name" "$room/kept" || return 1
    done
    cmp "$room/kept" "$room/plain" && cmp "$room/kept.key" "$room/key128" && [ ! -e "$room/nowhere" ] &&
        says 1 "$room/no/where cannot be opened for writing" open $with64 -o "$room/no/where" "$room/plain" &&
        says 1 "refusal 2" open -c 64 -r 11 --key "$key64" -n 1 -o "$room/refused" "$room/plain" && [ ! -e "$room/refused" ] &&
        says 1 "/dev/full cannot be written: No space" open $with64 -o /dev/full "$room/plain" && [ -e /dev/full ]
}

# One that cannot be written whole, and one whose making a signal ends, are taken away. The signal comes when the file is there,
# and ends the program, as its exit status says. It is TERM: of a program in the background the shell has INT ignored, and where
# all this runs without a terminal HUP may be. A program that goes on all the same is killed, and its file is still there then.
unfinished_files() {
    : >"$room/out"
    (ulimit -f 100 && stretch open $with64 -o "$room/cut" "$room/plain" 2>"$room/error")
    told 1 "$room/cut cannot be written: File too large" "$?" && [ ! -e "$room/cut" ] || return 1
    $EMULATOR "./$OUT/stretch" open --card $with64 -l 1073741824 -o "$room/cut" "$room/large" 2>"$room/error" &
    at_work=$! tries=0
    until [ -s "$room/cut" ] || [ "$tries" -gt 100 ]; do sleep 0.1 && tries=$((tries + 1)); done
    kill -s TERM "$at_work"
    tries=0
    while kill -0 "$at_work" 2>/dev/null && [ "$tries" -le 100 ]; do sleep 0.1 && tries=$((tries + 1)); done
    kill -s KILL "$at_work" 2>/dev/null
    wait "$at_work"
    status=$?
    [ ! -e "$room/cut" ] && [ "$status" -gt 128 ] && same_text '' "$(cat "$room/error")" && return
    echo "after the signal the exit status is $status, and the file: $(ls "$room/cut" 2>&1)"
    return 1
}

check "stretch: refusals 1 to 4, the first that applies, with the value, the text and nothing written" refuses_values
check "stretch: refusal 7, also where the stretch begins before the end" refuses_the_end
check "stretch: hex that is wrong, odd or too long, and which digit" wrong_hex
check "stretch: numbers that are none, or too large" wrong_numbers
check "stretch: words that are missing, twice there, too many or unknown" wrong_words
check "stretch: variables of the shell that are not set" unset_words
check "stretch: no message shows a key" shows_no_key
check "stretch: an empty key is refused unless it is asked for" refuses_empty_keys
check "stretch: key files that are not there, too long, or have two keys" wrong_key_files
check "stretch: warnings of a key that others can reach, and of weak sealing" warnings
check "stretch: --help and the man page have every option, and say what has to be known" helps
check "stretch: files that are not there, too short, directories, pipes and devices" wrong_files
check "stretch: a file that becomes shorter" shrinking_file
check "stretch: a file that becomes longer" growing_file
check "stretch: standard output full, closed, broken, and the file that is read" wrong_output
check "stretch: no file is written over" wrong_output_files
check "stretch: a file that is not whole is taken away" unfinished_files
