# Functions for the scripts of bench/, which source this file first. $here is the checkout, and $scratch an empty temporary directory, which
# is removed at the end. With an argument, a script only prints its first comment.
# shellcheck shell=bash disable=SC2034
here=$(cd "$(dirname "$0")" && pwd)
here=${here%/bench*}
top=$here
. "$here/scripts/sources.sh"
explain "$@"
scratch=$(mktemp -d)
trap 'rm -rf "$scratch"' EXIT

# Sets $program to the program that KYUA names, or to the one that kyua.sh runs.
find_program() {
    if [ -n "${KYUA:-}" ]; then
        program=$(realpath "$KYUA")
    else
        program=$("$here/scripts/program.sh")
    fi
}

# Creates a checkout in the temporary directory: these crates with their results of proofs, and the crate NAME_bench. That crate depends on
# LIBRARIES, and its program is the file main.txt of the directory NAME.
#   make_checkout NAME LIBRARIES CRATE..
make_checkout() {
    name=$1_bench
    mkdir -p "$scratch/crates/$name/src"
    cp "$here/HANDLES" "$scratch/"
    cp "$here/bench/$1/main.txt" "$scratch/crates/$name/src/main.rt"
    echo "$name: $2" > "$scratch/crates.txt"
    shift 2
    for crate in "$@"; do
        grep "^$crate:" "$here/crates.txt" >> "$scratch/crates.txt"
    done
    tar -C "$here/crates" --exclude=out/incremental -cf - "$@" | tar -C "$scratch/crates" -xf -
}

# Proves and links the program NAME_bench, and sets $bench to its path. Crates that aren't proved yet are proved in the temporary directory.
#   build_bench NAME
build_bench() {
    bench=$scratch/crates/$1_bench/out/$1_bench
    # rt runs the linked program, without arguments and in an empty directory. The status of that run doesn't matter.
    (cd "$scratch/crates/$1_bench" && rt run --jobs 1 < /dev/null > "$scratch/log" 2>&1) || true
    [ -x "$bench" ] || { tail -n 20 "$scratch/log"; exit 1; }
}
