# Sourced by tests/product.sh: how a check is made, and what several of them use.

check() { # NAME COMMAND..: passes where the command, which may be a function, succeeds
    checked=$1
    shift
    if "$@" >"$room/said" 2>&1; then
        passes "product: $checked"
    else
        fails "product: $checked"
        head -n 10 "$room/said" | sed 's/^/    /'
    fi
}

compiled() { # PROGRAM SOURCE WORDS..: a program over libfox.a
    out=$1
    shift
    $CC_HOST -std=gnu11 -O1 $strict $includes -o "$room/$out" "$@" "$OUT/libfox.a"
}

compiled_and_right() { # PROGRAM SOURCE WORDS..: it says by its exit status whether all is right
    compiled "$@" && run_host "$room/$1"
}

bytes_of() { # DIGITS: the bytes that pairs of upper-case hex digits stand for
    printf "$(echo "$1" | awk -v digits=0123456789ABCDEF '{
        for (i = 1; i < length($0); i += 2)
            printf "\\%03o", 16 * index(digits, substr($0, i, 1)) + index(digits, substr($0, i + 1, 1)) - 17
    }')"
}

short_key_commands() { # NUMBER: the block of commands of this number that README.md has for runs under short keys
    awk -v number="$1" '
        /^#/ { on = $0 == "### Old runs under short keys" }
        on && /^    / { seen += !inside; inside = 1; if (seen == number) print substr($0, 5); next }
        { inside = 0 }' README.md
}

same_text() { # EXPECTED FOUND
    [ "$1" = "$2" ] && return
    echo "expected: $1"
    echo "found:    $2"
    return 1
}
