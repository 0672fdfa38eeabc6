# What the commands share. $top is the project's folder.
# Proved programs and the archive are for x86-64.
top=$(cd "$(dirname "$(readlink -f "$0")")/.." && pwd -P) || exit 2
archive=$top/target/staticlib/libojeonbut.a
cc=gcc

# Is $1 missing, or older than a source of a crate?
stale() {
    [ ! -e "$1" ] || [ -n "$(find "$top"/crates/*/src "$top"/crates/*/specs "$top"/crates/*/proofs "$top/crates.txt" -newer "$1" \( -name '*.rt' -o -name '*.antt' -o -name crates.txt \) 2>/dev/null | head -n 1)" ]
}

# need_program CRATE: proves and builds a program where it is missing or older than a source; what is done goes to standard error. $proved is its path.
need_program() {
    proved=$top/crates/$1/out/$1
    if stale "$proved"; then
        echo "$1: proving the program and what it stands on, once" >&2
        if ! said=$(cd "$top/crates/$1" && rt run </dev/null 2>&1); then
            printf '%s\n' "$said" | tail -n 20 >&2
            echo "$1: the program is not proved: run 'rt check' in $top/crates/$1" >&2
            exit 1
        fi
        # It is of these sources, also where rt had nothing to build.
        touch "$proved"
    fi
}

# run_roads [NODES]: runs the program for road files. What it says goes to standard error, and a refusal is status 1.
run_roads() {
    need_program roads
    { said=$("$proved" "$@" 2>&1 >&3) || exit 1; } 3>&1
    [ -z "$said" ] || echo "$said" >&2
    case $said in refused*) exit 1 ;; usage*) exit 2 ;; esac
}

# Proves and writes the archive, for every x86-64 processor, where it is missing or old.
need_archive() {
    if stale "$archive"; then
        (cd "$top/crates/ojeonbut_c" && rt lib --cpu=x86-64) >&2 </dev/null || { echo "the archive is not proved: run 'rt check' in $top/crates/ojeonbut_c" >&2; exit 1; }
        mkdir -p "$(dirname "$archive")"
        cp "$top/crates/ojeonbut_c/out/libojeonbut_c.a" "$archive" && touch "$archive" || exit 1
    fi
}

need_compiler() {
    command -v "$cc" >/dev/null || { echo "$cc is not here: Debian's package gcc has it" >&2; exit 1; }
}

# compile PROGRAM SOURCE..: a C program over the archive.
compile() {
    program=$1; shift
    "$cc" -std=gnu11 -O3 -Wall -Wextra -I "$top/include" -o "$program" "$@" "$archive" -lm || exit 1
}
