#!/bin/sh
# The crates, floor by floor, from crates.txt and the `use` lines of their sources.
#   sh tools/crates.sh picture   prints the picture that README.md has: each crate, highest first, with what it stands on directly
#                                and not already by way of another
#   sh tools/crates.sh readme    sets that picture into README.md
#   sh tools/crates.sh check     holds crates.txt and README.md to the sources; last line: 'N passed, M failed'
set -u
cd "$(dirname "$0")/.." || exit 2
LC_ALL=C
export LC_ALL
begin='<!-- crates: made by tools/crates.sh -->' end='<!-- crates: end -->'
room=$(mktemp -d) || exit 2
trap 'rm -rf "$room"' EXIT

# "floor NAME" and "crate NAME", in the order of crates.txt, lowest first.
listed() {
    sed -n 's/^# \([a-z]*\): .*/floor \1/p; s/^\(fox_[a-z0-9_]*\)\( staticlib\)\{0,1\}:.*/crate \1/p' crates.txt
}

# "CRATE BELOW": what the `use` lines of a crate's sources name, its own name left out. A line may begin with words as `ghost`
# and `pub`, and what it names comes right after `use`.
used() {
    for crate in crates/*/; do
        crate=$(basename "$crate")
        find "crates/$crate" -name out -prune -o \( -name '*.rt' -o -name '*.antt' \) -exec sed -nE \
            's/^ *([a-z()]+ )*use (Rattle\.)?(fox_[a-z0-9_]+)(\.|::).*/\3/p' {} + |
            sort -u | sed "/^$crate\$/d; s/^/$crate /"
    done
}

# "CRATE BELOW": what crates.txt says that a crate stands on, the kit's own libraries left out.
said() {
    awk '/^fox_/ { for (k = 2; k <= NF; k++) if ($k ~ /^fox_/) { sub(":", "", $1); print $1, $k } }' crates.txt
}

# The arrows that are left when one follows from two others, from the highest crate down.
picture() {
    used >"$room/used"
    listed >"$room/listed"
    awk -v usedfile="$room/used" '
        function reaches(a, b,    k) {
            if ((a, b) in memo) return memo[a, b]
            memo[a, b] = 0
            for (k = 1; k <= n[a]; k++) if (below[a, k] == b || reaches(below[a, k], b)) return memo[a, b] = 1
            return 0
        }
        function line(c,    k, j, text, first) {
            text = sprintf("  %-26s", c)
            first = 1
            for (k = number; k >= 1; k--) {
                if (!((c, order[k]) in stands)) continue
                for (j = 1; j <= n[c]; j++) if (below[c, j] != order[k] && reaches(below[c, j], order[k])) break
                if (j <= n[c]) continue
                text = text (first ? "-> " : ", ") order[k]
                first = 0
            }
            sub(/ +$/, "", text)
            return text
        }
        BEGIN { while ((getline row < usedfile) > 0) { split(row, f, " "); stands[f[1], f[2]] = 1; below[f[1], ++n[f[1]]] = f[2] } }
        $1 == "floor" { floor = $2 }
        $1 == "crate" { order[++number] = $2; at[number] = floor }
        END {
            for (i = number; i >= 1; i--) {
                if (at[i] != at[i + 1]) print (i == number ? "" : "\n") at[i]
                print line(order[i])
            }
        }' "$room/listed"
}

block() {
    echo "$begin"
    echo '```text'
    picture
    echo '```'
    echo "$end"
}

readme() {
    block >"$room/block"
    awk -v blockfile="$room/block" -v begin="$begin" -v end="$end" '
        $0 == begin { while ((getline row < blockfile) > 0) print row; skip = 1 }
        !skip { print }
        $0 == end { skip = 0 }' README.md >"$room/readme" && cat "$room/readme" >README.md
}

# What these documents name and crates/ does not have: functions as `fox_x::m::f`, files as (`fox_x`, `F`), on one line or two.
named() {
    cat docs/STATEMENTS.md docs/EXCEPTIONS.md | tr '\n' ' ' | grep -oE '`fox_[a-z0-9_]+::[a-z0-9_]+(::[A-Za-z0-9_]+)*`' | sort -u |
        tr -d '`' | sed 's/::/ /g' | while read -r crate module rest; do
            file=crates/$crate/src/$module.rt name=${rest##* }
            [ "$crate" != fox_x ] || continue
            { [ -f "$file" ] && { [ -z "$name" ] || grep -qE "(fn|struct|enum|const) $name\\b" "$file"; }; } ||
                echo "$crate::$module $rest"
        done
    cat docs/STATEMENTS.md docs/EXCEPTIONS.md | tr '\n' ' ' | grep -oE '`fox_[a-z0-9_]+`, +`[A-Z][A-Za-z/]*`' | sort -u |
        tr -d '`,' | while read -r crate file; do
            [ "$crate" != fox_x ] || continue
            [ -f "crates/$crate/specs/$file.antt" ] || [ -f "crates/$crate/proofs/$file.antt" ] || echo "$crate, $file"
        done
}

passed=0 failed=0
hold() { # WHAT FILE: the file lists what is wrong
    if [ -s "$2" ]; then
        echo "crates: $1: FAILED:"
        head -n 5 "$2" | sed 's/^/    /'
        failed=$((failed + 1))
    else
        echo "crates: $1"
        passed=$((passed + 1))
    fi
}

# A crate may stand on crates that come before it in crates.txt: those of lower floors, and those below it on its own.
check() {
    listed >"$room/listed"
    used >"$room/used"
    said >"$room/said"
    sed -n 's/^crate //p' "$room/listed" | sort >"$room/names"
    ls crates | sort | diff "$room/names" - >"$room/wrong"
    hold "every folder of crates/ is listed, and every crate listed has its folder" "$room/wrong"
    sort "$room/said" >"$room/sorted"
    sort "$room/used" | comm -13 "$room/sorted" - >"$room/wrong"
    hold "crates.txt names all that the use lines name" "$room/wrong"
    awk 'FNR == NR { if ($1 == "crate") place[$2] = ++n; next } !($2 in place) || place[$2] >= place[$1]' \
        "$room/listed" "$room/said" >"$room/wrong"
    hold "arrows go down only" "$room/wrong"
    awk 'FNR == NR { if ($1 == "floor") floor = $2; else at[$2] = floor; next }
        at[$2] == "checks" && at[$1] != "checks" || at[$1] == "cipher" && at[$2] != "cipher" ||
        at[$1] == "promises" && at[$2] !~ /^(cipher|promises)$/ || at[$1] == "engines" && at[$2] == "products"' \
        "$room/listed" "$room/said" >"$room/wrong"
    hold "no crate stands on a higher floor" "$room/wrong"
    # An export that is named after no engine, as that of sessions, is of the first engine that it stands on.
    awk 'function engine(name) { split(name, part, "_"); return part[2] == "station" ? part[3] : part[2] }
        function own(name) {
            if (!(engine(name) in engines) && !(name in first)) first[name] = engine($2)
            return name in first ? first[name] : engine(name)
        }
        FNR == NR {
            if ($1 == "floor") floor = $2; else at[$2] = floor
            if ($1 != "floor" && floor == "engines") engines[engine($2)]
            next
        }
        at[$2] == "engines" && engine($2) != "engine" && (at[$1] == "engines" || $1 ~ /^fox_station_/) && own($1) != engine($2)' \
        "$room/listed" "$room/said" >"$room/wrong"
    hold "no engine, and no export of one, stands on another" "$room/wrong"
    named >"$room/wrong"
    hold "every file and function that docs/STATEMENTS.md and docs/EXCEPTIONS.md name is there" "$room/wrong"
    for file in README.md docs/*.md tests/README.md; do
        tr -d '\200-\277' <"$file" | awk -v file="$file" 'length > 160 { print file ":" NR }'
    done >"$room/wrong"
    hold "no line of a document has more than 160 characters" "$room/wrong"
    block >"$room/block"
    awk -v begin="$begin" -v end="$end" '$0 == begin { on = 1 } on { print } $0 == end { on = 0 }' README.md |
        diff "$room/block" - >"$room/wrong"
    hold "the picture in README.md is the one that the sources give (sh tools/crates.sh readme)" "$room/wrong"
    echo "$passed passed, $failed failed"
    [ "$failed" -eq 0 ]
}

case ${1:-} in
    picture | readme | check) "$1" ;;
    *)
        echo "usage: sh tools/crates.sh picture|readme|check" >&2
        exit 2
        ;;
esac
