#!/usr/bin/env bash
# Checks or makes the program of the repository in dist/, with which the first run needs no build:
#
#   dist/kyua     the linked program, for Linux on x86-64 with glibc 2.34 or later
#   dist/built    the hash of its sources (sources.sh), the kit, and the hash of the program
#
#   dist.sh fits            exits with 0 if that program was built from these sources and runs on this machine. Otherwise it prints the
#                           reason and exits with 1
#   dist.sh check           compares it with the program that ./build.sh built here. Exits with 0 if they have the same bytes, with 1 if
#                           not. Exits with 2 and prints the reason if it compared nothing: other sources, another kit, or no build here
#   dist.sh check --gate    compares it with the program that the gate has just proved. Exits with 0, too, if it is from other sources
#                           or another kit. The last line is 'N passed, M failed'
#   dist.sh make            builds the program, if necessary, and copies it to dist/
set -eu -o pipefail
top=$(cd "$(dirname "$0")/.." && pwd)
. "$top/scripts/sources.sh"
shipped=$top/dist/kyua
record=$top/dist/built
changed='dist/kyua has other bytes than the program that dist/built names.'
# Contains the hash of the sources for which `fits` printed that it runs dist/kyua.
said=$top/dist/out/said

# Succeeds if this machine runs the program: kyua exits with 3 after its help.
runs_here() {
  local status=0
  "$shipped" --help > /dev/null 2>&1 < /dev/null || status=$?
  [ $status = 3 ]
}

# misfit SOURCES: prints why dist/kyua can't be used for the sources with this hash, or nothing.
misfit() {
  if [ ! -x "$shipped" ] || [ ! -f "$record" ]; then
    echo 'There is no program in dist/.'
  elif ! says "$record" sources "$1"; then
    echo 'dist/kyua was built from other sources.'
  elif ! says "$record" program "$(hash_of "$shipped")"; then
    echo "$changed"
  elif ! runs_here; then
    echo 'dist/kyua does not run on this machine: it is for Linux on x86-64 with glibc 2.34 or later.'
  fi
}

fits() {
  local sources why
  sources=$(hash_of_sources)
  why=$(misfit "$sources")
  [ -z "$why" ] || { echo "$why" >&2; return 1; }
  grep -Fxq "$sources" "$said" 2>/dev/null ||
    echo 'Running dist/kyua, which was proved and built from these sources elsewhere. ./build.sh proves and builds it here.' >&2
  # In a read-only checkout, this message is printed each time.
  { mkdir -p "$top/dist/out" && echo "$sources" > "$said"; } 2>/dev/null || true
}

# check [--gate]
check() {
  local why
  find_rt || exit 2
  why=$(misfit "$(hash_of_sources)")
  if [ -z "$why" ] && ! says "$record" kit "$(rt --version)"; then
    why="dist/kyua is of $(sed -n 's/^kit //p' "$record"), and here is $(rt --version)."
  fi
  if [ "$why" = "$changed" ]; then
    echo "dist.sh: $why"
    echo '0 passed, 1 failed'
    return 1
  elif [ -n "$why" ]; then
    echo "dist.sh: nothing was compared: $why"
    [ "${1-}" = --gate ] || return 2
    echo '0 passed, 0 failed'
  elif [ ! -x "$built" ] || { [ "${1-}" != --gate ] && ! is_built; }; then
    echo 'dist.sh: nothing was compared: no program was built here from these sources: run ./build.sh.'
    [ "${1-}" != --gate ] || echo '0 passed, 1 failed'
    return 2
  elif cmp "$built" "$shipped"; then
    echo 'dist.sh: dist/kyua has the bytes of the program that was built here'
    echo '1 passed, 0 failed'
  else
    echo 'dist.sh: dist/kyua differs from the program that was built here from the same sources'
    echo '0 passed, 1 failed'
    return 1
  fi
}

make_dist() {
  find_rt || exit 2
  "$top/build.sh"
  mkdir -p "$top/dist"
  cp "$built" "$shipped.new"
  chmod 755 "$shipped.new"
  mv "$shipped.new" "$shipped"
  cp "$record_of_built" "$record"
}

case "$#:${1-}" in
  1:fits) fits ;;
  1:check) check ;;
  2:check) [ "$2" = --gate ] || explain "$@"; check --gate ;;
  1:make) make_dist ;;
  *) explain "${@:-}" ;;
esac
