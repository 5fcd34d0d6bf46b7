#!/usr/bin/env bash
# Measures how the runner starts, waits for and removes children:
# - the time of a `sleep 30` with a timeout of 2 seconds, alone and next to short programs
# - 2,000 short programs next to a program of 20 seconds, also by the original `kyua`, if it is installed
# - 256 programs that sleep at once, and 10,000 short programs, 256 at once
# - the cost of a wait of 5 seconds, the memory of an output of 100 MB, and the removal of the files that a case leaves
# KYUA names the program to measure; otherwise it is the one that kyua.sh runs. The script needs a C compiler, and writes only in a temporary
# directory.
set -eu
. "$(dirname "$0")/../scratch.sh"
. "$here/bench/measure.sh"
find_program

# Measures a run of a Kyuafile, WIDTH cases at once.
#   run TITLE KYUAFILE WIDTH
run() {
  tell "$1" "$program" -v parallelism="$3" test -k "$2" -r ours.db --work="$scratch"
}

# limited COUNT: runs a case that sleeps for 30 seconds with a timeout of 2, next to COUNT short cases, and prints its result and time.
limited() {
  { echo 'syntax(2)'; echo "test_suite('bench')"; echo "plain_test_program{name='thirty', timeout=2}"; } > Limited
  programs case "$1" | sed 1,2d >> Limited
  "$program" -v parallelism=8 test -k Limited -r limited.db --work="$scratch" | sed -n "s/^thirty:main  ->  /next to $1 short programs: /p"
}

# beside_sleeper WIDTH: measures a program of 20 seconds and 2,000 short ones, WIDTH at once.
beside_sleeper() {
  rm -f ours.db* theirs.db
  run "2,000 short programs next to one of 20 s, $1 at once" Sleeper "$1"
  [ -z "$other" ] || tell '  the original' "$other" -c none --logfile="$scratch/theirs.log" -v parallelism="$1" \
    test -k "$scratch/Sleeper" -r "$scratch/theirs.db"
}

cd "$scratch"
cp "$(type -P true)" case
printf '#!/bin/sh\nexec sleep 5\n' > waits
printf '#!/bin/sh\nexec sleep 30\n' > thirty
printf '#!/bin/sh\nexec sleep 20\n' > twenty
printf '#!/bin/sh\nhead -c 100000000 /dev/zero\n' > long
# Four times a path of 1,000 directories: a shell that steps into each would take longer than their removal.
path=$(printf 'd/%.0s' $(seq 1000))
for _ in 1 2 3 4; do echo "mkdir -p $path && cd -P $path || exit 1"; done | sed '1i#!/bin/sh' > nested
printf '#!/bin/sh\nseq 1000 | xargs mkdir\nfor d in $(seq 1000); do touch "$d"/1 "$d"/2 "$d"/3 "$d"/4 "$d"/5 "$d"/6 "$d"/7 "$d"/8 "$d"/9 "$d"/10; done\n' > wide
chmod +x waits thirty twenty long nested wide
{ programs twenty 1; programs case 2000 | sed 1,2d; } > Sleeper
programs waits 256 > Sleepers
programs case 10000 > Many
for one in waits long nested wide; do programs "$one" 1 > "$one.kyuafile"; done

for short in 0 300 1000; do
  limited "$short"
done
for width in 2 4 8 16; do
  beside_sleeper "$width"
done
run '256 programs that sleep for 5 s at once' Sleepers 256
run '10,000 short programs, 256 at once' Many 256
run 'a wait of 5 s' waits.kyuafile 1
run 'an output of 100 MB' long.kyuafile 1
run '4,000 nested directories that a case leaves' nested.kyuafile 1
run '1,000 directories and 10,000 files that a case leaves' wide.kyuafile 1
