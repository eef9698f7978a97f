#!/bin/sh
# The steps of the Makefile that make code for PROCESSOR, called from the project's folder as
# sh tools/build.sh STEP OUT FROM.. A STEP is crate, module, object, archive, shared or program.
set -u
. tools/machine.sh
flags="-O2 -Wall -Wextra -Wpedantic -Wshadow -Wconversion -Iinclude ${CFLAGS:-}"

stop() { # WHAT
    echo "make: $1" >&2
    exit 1
}

# What an export's line of crates.txt says that it stands on; FORM is a name, or an expression for several.
below() { # FORM
    sed -n "s/^$1 staticlib: *//p" crates.txt
}

# Proves the crate and has the kit compile it for PROCESSOR, by the kit's rt or another one, into crates/CRATE/out/libCRATE.a.
# All that it stands on is proved first, with what the other crates of the station's calls stand on, so that it can be said how
# many of how many are proved.
proved_archive() { # CRATE [RT]
    log=target/log/$1.lib like=$1
    case $1 in fox_station_*) like='fox_station_[a-z]*' ;; esac
    sh tools/prove.sh $(below "$like") || stop "$1 was not built"
    # The oldest processor of its kind that the kit compiles for.
    case $PROCESSOR in
        x86_64) oldest=x86-64 ;;
        *) oldest=generic ;;
    esac
    echo "    proving and compiling $1"
    (cd "crates/$1" && "${2:-rt}" lib --target "$PROCESSOR-unknown-linux-gnu" --cpu "$oldest") >"$log" 2>&1 || {
        last_said "$log" >&2
        stop "$1 was not built; $log has all that was said"
    }
}

# A kit like the one in use, but for a compiler that keeps the module that Rattle hands to it. rt finds its kit by where its own
# files are, links followed, so that these are copied.
keeping_kit() { # FOLDER MODULE
    mkdir -p "$1/bin" "$1/toolchain/bin" && cp "$KIT/bin/rt" "$KIT"/bin/*.py "$1/bin" || return
    for f in "$KIT"/* "$KIT/bin"/* "$KIT_TOOLS"/* "$KIT_TOOLS/bin"/*; do
        to=$1${f#"$KIT"}
        [ -e "$to" ] || ln -s "$f" "$to"
    done
    rm "$1/toolchain/bin/clang"
    cat >"$1/toolchain/bin/clang" <<END
#!/bin/sh
for word; do case \$word in *.bc) cp "\$word" "$2" ;; esac; done
exec "$KIT_TOOLS/bin/clang" "\$@"
END
    chmod +x "$1/toolchain/bin/clang"
}

# The crate's module as Rattle hands it to its compiler.
module() { # OUT CRATE
    fresh "$1" && return
    room=$(mktemp -d) || exit 1
    trap 'rm -rf "$room"' EXIT
    keeping_kit "$room/kit" "$PWD/$1" && proved_archive "$2" "$room/kit/bin/rt" && [ -f "$1" ] ||
        stop "the module of $2 was not kept"
    touch "$1"
}

# The object of a crate's exports, with all in it that they need of the crates below.
crate() { # OUT CRATE
    proved_archive "$2"
    archive=$PWD/crates/$2/out/lib$2.a
    (cd "$OUT" && "$KIT_TOOLS/bin/llvm-ar" x "$archive" "$2.o") && touch "$1" || stop "$1 was not made"
}

object() { # OUT SOURCE WORDS..
    out=$1
    shift
    $CC_HOST -std=c99 -fPIC $flags -c -o "$out" "$@"
}

archive() { # OUT OBJECT..
    rm -f "$1"
    $(tool ar) rcs "$@"
}

shared() { # OUT SONAME OBJECT..: with links to it by its soname and by the name that programs are linked with
    out=$1 soname=$2
    shift 2
    $CC_PLAIN -shared -Wl,-soname,"$soname" -Wl,-z,defs -Wl,-z,now -o "$out" "$@" &&
        ln -sf "${out##*/}" "${out%/*}/$soname" && ln -sf "$soname" "${out%/*}/libfox.so"
}

program() { # OUT SOURCE.. LIBRARY
    out=$1
    shift
    $CC_HOST -std=gnu11 $flags -o "$out" "$@"
}

sh tools/needs.sh || exit 1
mkdir -p "$OUT" target/log
out_folders || exit 1
"$@"
