#!/usr/bin/env bash
# Measures the cost of this `kyua`, of the original, if it is installed, and of the floor, the minimum work of any runner (floor.c).
#
#   run.sh
#
# The three run in turn, and a row of the table has their medians: seconds, processor seconds with those of the children, and MiB of the
# largest process, which is the runner. The last columns have the ratio of processor seconds to the original's, and to the floor's. A row
# has three rounds, or one if a round takes 10 seconds or the script has run for 120. A second table has the time between the end of a
# program and the runner's notice of it.
# KYUA names the program to measure; otherwise it is the one that kyua.sh runs. ROUNDS is the number of rounds. The script needs a C
# compiler. It works in memory if there is enough, or in TMPDIR, and writes nothing else. It takes at most three minutes on four
# processors. Exits with 0 if all is measured, else with another status.
set -eu
. "$(dirname "$0")/scratch.sh"
# Running processes end first, and leave nothing.
trap 'exit 1' HUP INT TERM
find_program
# In memory, the disk doesn't affect the times. All results together take 1 GB.
if [ -z "${TMPDIR-}" ] && memory=$(mktemp -d /dev/shm/kyua.XXXXXX 2> /dev/null); then
  printf '#!/bin/sh\n' > "$memory/try"
  chmod +x "$memory/try"
  if "$memory/try" 2> /dev/null && df -Pk "$memory" | awk 'NR == 2 && $4 < 2000000 { exit 1 }'; then
    rmdir "$scratch"
    scratch=$memory
  else
    rm -r "$memory"
  fi
fi
export TMPDIR=$scratch HOME=$scratch LC_ALL=C
# A runner copies each variable of its environment for each child. So each runner gets an environment as small as cron's.
# The value of `name` is the name of a variable.
# shellcheck disable=SC2163
for name in $(compgen -e); do
  case $name in
    HOME | LC_ALL | LOGNAME | PATH | SHELL | TMPDIR) ;;
    *) export -n "$name" ;;
  esac
done
cd "$scratch"
. "$here/bench/measure.sh"
rounds=${ROUNDS:-3}

# Measures a runner, which must print $lines lines that match $line.
runs() {
  local found
  measure "$@"
  found=$(grep -c "$line" out) || true
  [ "$found" = "$lines" ] || { echo "bench: $found lines and not $lines: ${*:2}" >&2; exit 1; }
}
ours() { runs ours "$program" "$@"; }
theirs() { [ -z "$other" ] || runs theirs "$other" -c none --logfile="$scratch/log" "$@"; }

# Runs a runner's `test` of a Kyuafile. The floor gets the program and the numbers of its lists and cases instead.
#   ours_tests KYUAFILE WIDTH RESULTS
ours_tests() { ours -v parallelism="$2" test -k "$1.kyuafile" -r "$3" --work="$scratch"; }
theirs_tests() { theirs -v parallelism="$2" test -k "$scratch/$1.kyuafile" -r "$scratch/$3"; }
#   floor_tests PROGRAM LISTS CASES WIDTH RESULTS
floor_tests() { runs floor ./floor "$scratch/$1" "${@:2}"; }

# Runs a round of a row.
#   tests INTERFACE LISTS CASES WIDTH
tests() {
  rm -f {ours,theirs,floor}.db*
  ours_tests "$1" "$4" ours.db
  theirs_tests "$1" "$4" theirs.db
  floor_tests "$@" floor.db
}
# The original creates a file for each run, and rejects a file with results.
#   tests_beside FILE
tests_beside() {
  rm -f {ours,floor}.db*
  cp "$1" ours.db
  cp "$1" floor.db
  ours_tests hundred 4 ours.db
  floor_tests plain 0 100 4 floor.db
}
#   lists KYUAFILE
lists() {
  ours list -k "$1.kyuafile" --work="$scratch"
  theirs list -k "$scratch/$1.kyuafile"
}
#   reports COMMAND RESULTS
reports() {
  ours "$1" -r "$2.ours"
  [ ! -e "$2.theirs" ] || theirs "$1" -r "$scratch/$2.theirs"
}

# Creates the file `older`, which has the 10,000 results of the first run TIMES times. Each result has BYTES bytes of output, and its
# properties unless BYTES is 0.
#   older TIMES BYTES
older() {
  cp many.ours older
  sqlite3 -batch -bail older "
    CREATE TEMP TABLE copies AS WITH RECURSIVE c(n) AS (SELECT 2 UNION ALL SELECT n + 1 FROM c WHERE n < $1) SELECT n FROM c;
    INSERT INTO runs SELECT n, started, total, finished FROM runs, copies;
    INSERT INTO entries SELECT n, position, program, case_name, kind, reason, started, millis, randomblob($2), body_err, clean_out,
      clean_err FROM copies, entries WHERE run = 1 ORDER BY n, position;
    INSERT INTO props SELECT n, position, place, name, value FROM copies, props WHERE run = 1 AND $2 > 0 ORDER BY n, position, place;
    PRAGMA wal_checkpoint(truncate)" > log
}

# Prints the median of a column of a runner's figures, divided by UNIT, or a dash if there are no figures.
#   median RUNNER COLUMN UNIT
median() {
  sort -n -k "$2,$2" "$1.figures" 2> /dev/null | awk -v column="$2" -v unit="$3" '
    { value[NR] = $column / unit }
    END {
      median = (value[int((NR + 1) / 2)] + value[int(NR / 2) + 1]) / 2
      print NR == 0 ? "-" : sprintf(median < 1 ? "%.3f" : median < 10 ? "%.2f" : median < 100 ? "%.1f" : "%.0f", median)
    }'
}
#   cell COLUMN UNIT
cell() {
  printf '%5s / %5s / %5s' "$(median ours "$@")" "$(median theirs "$@")" "$(median floor "$@")"
}
#   ratio RUNNER
ratio() {
  awk -v ours="$(median ours 2 1)" -v other="$(median "$1" 2 1)" 'BEGIN {
    print (other + 0 ? sprintf(ours < other / 10 ? "%.3f" : "%.2f", ours / other) : "-")
  }'
}

# Measures a row in its rounds, and prints it.
#   row TITLE LINES LINE FUNCTION [ARGUMENT..]
row() {
  local title=$1 round begun
  lines=$2 line=$3
  rm -f ./*.figures
  for ((round = 0; round < rounds; round++)); do
    begun=$SECONDS
    "${@:4}"
    if [ $((SECONDS - begun)) -ge 10 ] || [ "$SECONDS" -ge 120 ]; then break; fi
  done
  printf '| %-54s | %6d | %s | %s | %s | %5s | %5s |\n' "$title" "$(wc -l < ours.figures)" \
    "$(cell 1 1)" "$(cell 2 1)" "$(cell 3 1024)" "$(ratio theirs)" "$(ratio floor)"
}

# Runs a runner on programs that end late, and prints the mean time in microseconds from an end to the runner's notice of it.
#   notices COMMAND [ARGUMENT..]
notices() {
  rm -f notices
  ./measure /dev/null env NOTICES="$scratch/notices" LD_PRELOAD="$scratch/notice.so" "$@" > out
  awk '
    $1 in ended { late += $2 - ended[$1]; count++ }
    { ended[$1] = $2 }
    END { printf "%d", late / count / 1000 }' notices
}
# Prints a row for COUNT programs, which run one at a time and take MILLISECONDS on average.
#   ends MILLISECONDS COUNT
ends() {
  ln -f plain "ends.$1"
  programs "ends.$1" "$2" > ends.kyuafile
  rm -f {ours,floor}.db*
  printf '| %4d | %3d | %5d / %5d |\n' "$1" "$2" \
    "$(notices "$program" -v parallelism=1 test -k ends.kyuafile -r ours.db --work="$scratch")" \
    "$(notices ./floor "$scratch/ends.$1" 0 "$2" 1 floor.db)"
}

# A static program starts fastest.
cc -O2 -static -o plain "$here/bench/case.c" 2> log || cc -O2 -o plain "$here/bench/case.c"
for name in tap atf one loud brief; do ln plain "$name"; done
cc -O2 -shared -fPIC -o notice.so "$here/bench/notice.c"
keeps='keeps its results with sqlite3'
cc -O2 -DKEEPS -o floor "$here/bench/floor.c" -lsqlite3 2> log || {
  keeps='keeps no results, since there is no header of SQLite'
  cc -O2 -o floor "$here/bench/floor.c"
}
programs plain 1000 > plain.kyuafile
programs plain 100 > hundred.kyuafile
programs plain 10000 > many.kyuafile
programs tap 500 tap > tap.kyuafile
programs atf 50 atf > atf.kyuafile
programs atf 100 atf > lists.kyuafile
programs one 1 > one.kyuafile
programs brief 200 > brief.kyuafile
programs loud 100 > loud.kyuafile
programs loud 256 > louder.kyuafile
{ echo 'syntax(2)'; printf "include('tree.%d/Kyuafile')\n" {1..100}; } > tree.kyuafile
for directory in {1..100}; do
  mkdir "tree.$directory"
  ln plain "tree.$directory/plain"
  programs plain 10 > "tree.$directory/Kyuafile"
done

echo "Each cell: $program / ${other:-the original, which is not installed} / the floor, which $keeps."
echo "$(nproc) processors, files in ${scratch%/*}."
echo
echo '| what | rounds | seconds | processor seconds | MiB | to the original | to the floor |'
echo '|---|---|---|---|---|---|---|'
row 'test of a plain program, in a new file' 1 '  ->  passed' tests one 0 1 1
for width in 1 4 8; do row "test of 1,000 plain programs, $width at once" 1000 '  ->  passed' tests plain 0 1000 $width; done

# The reported results. The original takes two minutes for 10,000 cases, so it gets copies of the last 1,000 results, if sqlite3 is
# installed.
line='  ->  passed'
lines=10000
ours_tests many 8 many.ours
lines=256
ours_tests louder 8 louder.ours
theirs_tests louder 8 louder.theirs
if [ -n "$other" ] && type -P sqlite3 > /dev/null; then
  mv theirs.db many.theirs
  sqlite3 many.theirs <<'SQL'
CREATE TEMP TABLE copies AS WITH RECURSIVE c(n) AS (SELECT 1 UNION ALL SELECT n + 1 FROM c WHERE n < 9) SELECT n * 1000000 AS n FROM c;
INSERT INTO metadatas SELECT metadata_id + n, property_name, property_value FROM metadatas, copies;
INSERT INTO test_results SELECT test_case_id + n, result_type, result_reason, start_time, end_time FROM test_results, copies;
INSERT INTO test_cases SELECT test_case_id + n, test_program_id, name, metadata_id + n FROM test_cases, copies;
SQL
fi

for width in 1 4 8; do row "test of 500 TAP programs, $width at once" 500 '  ->  passed' tests tap 0 500 $width; done
for width in 1 4 8; do row "test of 50 ATF programs with 4 cases, $width at once" 200 '  ->  passed' tests atf 50 200 $width; done
row 'test of 200 programs that print 10 KiB, 4 at once' 200 '  ->  passed' tests brief 0 200 4
row 'test of 100 programs that print 1 MiB, 4 at once' 100 '  ->  passed' tests loud 0 100 4
row 'test of 100 programs, beside 10,000 results, 4 at once' 100 '  ->  passed' tests_beside many.ours
if type -P sqlite3 > /dev/null; then
  older 20 0
  row 'test of 100 programs, beside 200,000 results' 100 '  ->  passed' tests_beside older
  older 20 300
  row 'the same, with 300 bytes of output and pairs each' 100 '  ->  passed' tests_beside older
  older 100 0
  row 'test of 100 programs, beside 1,000,000 results' 100 '  ->  passed' tests_beside older
  mv ours.db older.ours
  row 'report of 100 cases, beside 1,000,000 results' 1 '^Test cases: 100 total' reports report older
  rm older older.ours
fi
row 'list of 1,000 plain programs in 100 Kyuafiles' 1000 :main lists tree
row 'list of 100 ATF programs with 4 cases' 400 atf: lists lists
row 'report of 10,000 cases' 1 '^Test cases: 10000 total' reports report many
row 'report-junit of 10,000 cases' 10000 '<testcase ' reports report-junit many
row 'report of 256 cases that printed 1 MiB' 1 '^Test cases: 256 total' reports report louder
row 'report-junit of 256 cases that printed 1 MiB' 256 '<testcase ' reports report-junit louder

echo
echo '| milliseconds of a program | programs | microseconds until its end is heard of: '"${program##*/}"' / the floor |'
echo '|---|---|---|'
for length in 1 5 20; do ends $length 200; done
ends 1000 8
echo
echo "$SECONDS seconds"
