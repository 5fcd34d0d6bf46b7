#!/usr/bin/env bash
# Proves and builds the program kyua in crates/kyua/out, unless it was already built from these sources. First it proves every crate below
# kyua, each as soon as the crates below that are proved. Standard error gets a line for each crate. This takes about half an hour on four
# processors.
#
#   build.sh
#
# rt is taken from PATH, else from the kit that RATTLE_KIT names. Exits with 0, or with 2 if the build fails or a tool is missing.
set -eu -o pipefail
top=$(cd "$(dirname "$0")" && pwd)
. "$top/scripts/sources.sh"
explain "$@"
out=$top/crates/kyua/out
log=$out/build.log
rooms=$out/rooms
# The longest chain of crates that wait for one another. Its crates have priority over the others.
chain=' kt_base kt_script kt_config kt_metadata kt_suite kt_sched kt_child kt_plan kt_args kt_cli '

give_up() {
  tail -n 40 "$log" >&2
  exit 2
}

# below CRATE: prints the crates below a crate, the lowest first.
below() {
  crates_up_to "$1" | grep -v "^$1\$" || true
}

# furnish CRATE: creates a checkout of a crate and the crates below it, since two runs of rt in one checkout wait for each other.
# It links the results of the crates below, and moves the earlier results of this crate, since they are large.
furnish() {
  local name=$1 room=$rooms/$1 other part
  mkdir -p "$room/crates"
  cp "$top/HANDLES" "$room"
  : > "$room/crates.txt"
  for other in $(below "$name") "$name"; do
    grep "^$other:" "$top/crates.txt" >> "$room/crates.txt"
    mkdir "$room/crates/$other"
    for part in src specs proofs; do
      [ ! -d "$top/crates/$other/$part" ] || cp -a "$top/crates/$other/$part" "$room/crates/$other"
    done
  done
  for other in $(below "$name"); do
    mkdir "$room/crates/$other/out"
    cp -al "$top/crates/$other/out/rlib" "$room/crates/$other/out"
  done
  [ ! -d "$top/crates/$name/out" ] || mv "$top/crates/$name/out" "$room/crates/$name"
}

# prove CRATE: proves a crate after the crates below it. A file in the directory $rooms records the outcome.
prove() {
  local name=$1 other jobs politeness=10 status=0
  for other in $(below "$name"); do
    while [ ! -e "$rooms/$other.proved" ]; do
      [ ! -e "$rooms/failed" ] || return 0
      sleep 0.2
    done
  done
  jobs=$(nproc)
  case $chain in *" $name "*) politeness=0 ;; esac
  furnish "$name"
  (cd "$rooms/$name/crates/$name" && nice -n "$politeness" rt lib --jobs "$jobs") </dev/null >"$rooms/$name.log" 2>&1 || status=1
  [ ! -d "$rooms/$name/crates/$name/out" ] || mv "$rooms/$name/crates/$name/out" "$top/crates/$name/out"
  cat "$rooms/$name.log" >> "$log"
  if [ "$status" = 0 ]; then
    echo "build.sh: proved $name" >&2
    : > "$rooms/$name.proved"
  else
    echo "build.sh: not proved: $name" >&2
    : > "$rooms/failed"
  fi
}

find_tools || exit 2
if is_built; then exit; fi
find_rt || exit 2
# If this build fails, no older program may remain.
rm -rf "$built" "$record_of_built" "$rooms"
mkdir -p "$rooms"
: > "$log"
sources=$(hash_of_sources)
for name in $(crates_up_to kyua); do
  [ "$name" = kyua ] || prove "$name" &
done
wait
[ ! -e "$rooms/failed" ] || give_up
rm -rf "$rooms"
echo 'build.sh: proving and linking kyua' >&2
# rt runs the linked program without arguments. The status of that run doesn't matter.
(cd "$top/crates/kyua" && rt run --jobs "$(nproc)") </dev/null >>"$log" 2>&1 || true
[ -x "$built" ] || give_up
# If a source was edited during the build, the sources have another hash now.
make_record "$built" "$sources" > "$record_of_built"
