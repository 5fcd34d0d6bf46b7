# Functions for the scripts that time commands. $other is the original `kyua`, or empty if it isn't installed. The functions work in the
# temporary directory, and need a C compiler.
# shellcheck shell=bash disable=SC2034,SC2154

# Prints the path of the original. This repository's program may be installed under the same name, but has no command `about`.
original() {
  type -aP kyua | while read -r found; do
    if HOME=$scratch "$found" about > /dev/null 2>&1; then echo "$found"; break; fi
  done
}
other=$(original)
cc -O2 -o "$scratch/measure" "$here/bench/measure.c"

# Prints a Kyuafile that registers a program COUNT times.
#   programs NAME COUNT [INTERFACE]
programs() {
  echo 'syntax(2)'
  echo "test_suite('bench')"
  for _ in $(seq "$2"); do echo "${3-plain}_test_program{name='$1'}"; done
}

# Runs a command, whose output is the file out, and adds the figures of measure.c to NAME.figures.
#   measure NAME COMMAND [ARGUMENT..]
measure() {
  local name=$1
  shift
  "$scratch/measure" "$scratch/$name.figures" "$@" > "$scratch/out" 2>&1 || { tail -n 5 "$scratch/out" >&2; exit 1; }
}

# Measures a command once, and prints its figures.
#   tell TITLE COMMAND [ARGUMENT..]
tell() {
  rm -f "$scratch/told.figures"
  measure told "${@:2}"
  awk -v title="$1" '{ printf "%s: %.2f s, %.2f s of a processor, %.1f MiB\n", title, $1, $2, $3 / 1024 }' "$scratch/told.figures"
}
