#!/bin/sh
# Proves crates with all that they stand on, lowest first: sh tools/prove.sh CRATE..
# Says which crate is being proved, how many of how many that makes, and the time so far; all that rt says is in target/log.
# Libraries are built for the crates above them. A program is built and run too, and has to print what its file stdout has.
set -u
cd "$(dirname "$0")/.." || exit 2
. tools/machine.sh
began=$(date +%s)

closure() { # CRATE..: each after all that it stands on
    awk -v wanted="$*" '
        function visit(n,    below, k, m) {
            if (!(n in stands) || seen[n]++) return
            m = split(stands[n], below, " ")
            for (k = 1; k <= m; k++) visit(below[k])
            print n
        }
        { sub(/#.*/, "") }
        (at = index($0, ":")) { split($0, word, /[ \t:]+/); stands[word[1]] = substr($0, at + 1) }
        END { m = split(wanted, want, " "); for (k = 1; k <= m; k++) visit(want[k]) }' crates.txt
}

so_far() {
    seconds=$(($(date +%s) - began))
    echo "$((seconds / 60)) min $((seconds % 60)) s"
}

kind() { # CRATE
    if [ -f "crates/$1/src/main.rt" ]; then
        echo program
    elif grep -q "^$1 staticlib" crates.txt; then
        echo exports
    else
        echo library
    fi
}

in_crate() { # CRATE WORDS..: of rt
    crate=$1
    shift
    (cd "crates/$crate" && rt "$@")
}

# One that needs no input has no file stdin, and one that prints nothing no file stdout.
runs() { # CRATE
    for file in stdin stdout; do
        if [ -f "crates/$1/$file" ]; then cat "crates/$1/$file"; fi >"target/log/$1.$file.listed"
    done
    in_crate "$1" run <"target/log/$1.stdin.listed" >"target/log/$1.stdout" 2>"target/log/$1.said" || return
    cmp "target/log/$1.stdout" "target/log/$1.stdout.listed" >>"target/log/$1.said" 2>&1 && touch "crates/$1/out/$1"
}

proved() { # CRATE
    case $(kind "$1") in
        program) runs "$1" ;;
        exports) in_crate "$1" check >"target/log/$1.said" 2>&1 ;;
        library) in_crate "$1" lib >"target/log/$1.said" 2>&1 && touch "target/log/$1.proved" ;;
    esac
}

# A library that rt was asked for since a source last changed needs no other look; rt looks at its files again when it takes
# up a crate above it.
known() { # CRATE
    [ "$(kind "$1")" = library ] && [ -f "crates/$1/out/rlib/stamp" ] && fresh "target/log/$1.proved"
}

crates=$(closure "$@") # without the kit's own libraries
total=$(echo "$crates" | wc -w) number=0 new=0
mkdir -p target/log
out_folders || exit 1
for crate in $crates; do
    number=$((number + 1))
    known "$crate" && continue
    new=$((new + 1))
    echo "    proving $crate, $number of $total, $(so_far) so far"
    proved "$crate" || {
        last_said "target/log/$crate.said"
        echo "$crate NOT PROVED"
        echo "not proved; target/log/$crate.said has all that was said" >&2
        exit 1
    }
done
[ "$new" -eq 0 ] || echo "    proved: $total of $total, in $(so_far)"
