#!/usr/bin/env bash
# Checks each example of crates/kt_rows/data in a separate process, with the program kt_rows that was proved and linked:
#
# - An example that repeats something 4,000 times or more runs under a limit of one processor second. A comment `# At most N processor
#   seconds.` before it sets another limit, ten times what the example takes. Quadratic time in the size of the input exceeds the limit.
# - An example runs again with failed allocations: in each copy of the process one allocation fails (refuse_each.c). The output must be
#   the expected output, or differ from it only as memory_answers.py permits. All allocations of an example after a comment
#   `# Each allocation refused.` are tried. Of another example twelve are tried, or two if it takes long; the sources select which.
#
#   rows_alone.sh                 all examples
#   rows_alone.sh FILE.rows ..    only the examples of these files
#
# With ROWS_PLACES=all each allocation of each example is tried, up to 4,000 of them. In an example with more, allocations are grouped by
# their list of return addresses. Of a group it tries the first four, the last, those whose number is a power of two, and about four in
# between. It tries only one in N of these if they would take more than ROWS_SECONDS processor seconds for an example (600), or 5 without
# ROWS_PLACES. ROWS_JOBS is how many examples run at once. KT_ROWS names another program.
#
# Prints each example that fails. The last line is 'N passed, M failed', over the examples. Exits with 0 if M is 0, with 3 on an unknown
# argument, else with 1.
set -eu -o pipefail
top=$(cd "$(dirname "$0")/.." && pwd)
. "$top/scripts/sources.sh"
data=$top/crates/kt_rows/data
for word; do
  [ -f "$data/$word" ] || explain "$@"
done
program=$(realpath -m "${KT_ROWS:-$top/crates/kt_rows/out/kt_rows}")
fail() {
  echo "rows_alone.sh: $*" >&2
  echo '0 passed, 1 failed'
  exit 1
}
[ -x "$program" ] || fail "there is no program $program; rows.sh builds it"
command -v cc > /dev/null 2>&1 || fail 'there is no C compiler cc, which the failed allocations need'
command -v python3 > /dev/null 2>&1 || fail 'there is no python3, which rt needs, too'
room=$(mktemp -d)
trap 'rm -rf "$room"' EXIT
places=${ROWS_PLACES:-some}
# Selects the allocations that are tried: a number that depends on the sources.
first=$((16#$(hash_of_sources | cut -c 1-7)))
export room program places data first

# Puts each example of a file into a separate directory FILE.LINE, as that file. The directory gets its limit, if it has one, and a file
# `each` if all its allocations are tried.
#   rows_of FILE
rows_of() {
  awk -v file="$1" -v room="$room/rows" '
    function begin() {
      here = room "/" file "." NR
      system("mkdir -p " here)
      answered = 0
      if (limit) set_limit()
      if (each) { printf "" > (here "/each"); close(here "/each"); each = 0 }
    }
    function set_limit() {
      print limit > (here "/limit")
      close(here "/limit")
      limited = here
      limit = 0
    }
    /^[ \t]*# At most [0-9]+ processor seconds?\.$/ { limit = $4; next }
    /^[ \t]*# Each allocation refused\.$/ { each = 1; next }
    /^[ \t]*(#|$)/ { next }
    {
      is_answer = /^[ \t]*->/
      if (here == "" || answered && !is_answer) { if (here != "") close(here "/" file); begin() }
      if (is_answer || / ->( |$)/) answered = 1
      if (here != limited && repeats_often($0)) { limit = 1; set_limit() }
      print > (here "/" file)
    }
    function repeats_often(line) {
      while (match(line, /(\\\*|^times |^items )[0-9]+/)) {
        number = substr(line, RSTART, RLENGTH)
        sub(/^[^0-9]*/, "", number)
        if (number + 0 >= 4000) return 1
        line = substr(line, RSTART + RLENGTH)
      }
      return 0
    }' "$data/$1"
}

# Prints what is wrong with the example of this directory.
complain() {
  echo "${PWD##*/}: $1"
  head -n 3 told | cut -c 1-1000
}

# Succeeds if the output of an example is the expected output, within its limit if it has one. Sets count to its number of allocations,
# and spent to its processor time in milliseconds.
#   is_due FILE
is_due() {
  local TIMEFORMAT='%3U %3S' took limit=unlimited chosen
  [ ! -e limit ] || limit=$(<limit)
  took=$( (ulimit -t "$limit" && time LD_PRELOAD=$room/refuse.so COUNTED=$PWD/count "$program" "$1" > /dev/null 2> told) 2>&1) ||
    { if [ -s told ]; then complain 'unexpected output'; else complain 'not within its limit'; fi; return 1; }
  took=${took//./}
  spent=$((10#${took% *} + 10#${took#* }))
  read -r count chosen < ./count
}

# Continues copies of an example, in each of which one of its allocations fails, and records their outputs.
#   without_memory FILE
without_memory() {
  local step=1 from=1 chosen tried=$places seconds=${ROWS_SECONDS:-600}
  [ ! -e each ] || tried=all
  if [ "$tried" = all ] && [ "$count" -gt 4000 ]; then
    LD_PRELOAD=$room/refuse.so COUNTED=$PWD/count BY_PLACE=1 "$program" "$1" > /dev/null 2> told
    read -r count chosen < ./count
    [ "$places" = all ] || seconds=5
    # A copy runs half of the example on average.
    export PLACES=$PWD/count EVERY=$((chosen * (spent + 2) / 2000 / seconds + 1))
  elif [ "$tried" != all ]; then
    if [ "$spent" -gt 100 ]; then step=$((count / 2 + 1)); else step=$((count / 12 + 1)); fi
    from=$(((first + ${PWD##*.}) % step + 1))
  fi
  export ANSWERS=$PWD/answers COPY_SECONDS=$((spent / 100 + 10)) FROM=$from STEP=$step
  LD_PRELOAD=$room/refuse.so "$program" --whole "$1" > /dev/null 2> told || { complain 'unexpected output'; return 1; }
  [ -s answers ] || { complain 'there is no output of a failed allocation'; return 1; }
}

# Checks the example of a directory, and prints what is wrong with it. Its outputs with failed allocations are checked later.
#   check DIRECTORY
check() {
  cd "$1"
  local count spent file=${1##*/}
  file=${file%.*}
  [ ! -d "$data/${file%.rows}" ] || ln -s "$data/${file%.rows}" "${file%.rows}"
  echo "${1##*/}" > row
  is_due "$file" && without_memory "$file"
}
export -f check is_due without_memory complain

# memory_answers.py must reject each of these outputs: an invented reason, a reason of another interface, another exit status, other
# totals, another case, two errors, a case that is not recorded.
#   wrong EXPECTED FOUND [LINE]: the output of an example of one case, to which this line is added
wrong() {
  local here=$room/judge/commands.rows.$((judged += 1)) text
  mkdir -p "$here"
  printf '%s\n' "holds Kyuafile plain_test_program{name='a'}" "${3-# nothing more}" 'do test' "-> ${1//\\n/$'\n-> '}" > "$here/commands.rows"
  text=$(printf '%s\n' 'commands.rows:1: another answer' "  wanted: \"$1\"" "  got:    \"$2\"")
  printf '%s\n' "1 1 256 $((${#text} + 1))" "$text" '' '1 0.001' > "$here/answers"
}
try_judge() {
  mkdir "$room/judge"
  judged=0
  local due='a:main  ->  passed  [0.012s]\n\n1/1 passed (0 failed)\nexit 0'
  local memory='broken: Test case could not be started for want of memory'
  wrong "$due" 'a:main  ->  failed: memory  [0.012s]\n\n0/1 passed (1 failed)\nexit 1'
  wrong "$due" 'a:main  ->  broken: Results file could not be read  [0.012s]\n\n0/1 passed (1 failed)\nexit 1'
  wrong "$due" 'kyua: E: out of memory\nexit 1'
  wrong "$due" "a:main  ->  $memory  [0.000s]\n\n1/1 passed (1 failed)\nexit 1"
  wrong "$due" "a:main  ->  $memory  [0.000s]\n\n0/1 passed (1 failed)\nexit 0"
  wrong "$due" "b:main  ->  $memory  [0.000s]\n\n0/1 passed (1 failed)\nexit 1"
  wrong "$due" "a:main  ->  $memory  [0.000s]\nkyua: E: results store failed\nexit 2"
  wrong "$due" 'kyua: E: out of memory\nkyua: E: out of memory\nexit 2'
  wrong "$due" 'a:main  ->  passed  [0.012s]\n\n1/1 passed (0 failed)\nkyua: E: out of memory\nexit 0'
  wrong 'stopped in attach 0 begin put 1 finish, then not' "stopped in attach 0 begin, and then the page is no beginning\nwhole\na:main  ->  $memory  [0.000s]\n\n0/1 passed (1 failed)\nrun 1 at 500, 1 cases\n0 a:main $memory, started 0, took 0\nfinished\ncut\na:main  ->  passed  [0.012s]\nkyua: E: results store failed\nrun 1 at 500, 1 cases\nunfinished" 'disk log'
  printf '%s\n' "$room"/judge/* | python3 "$top/scripts/memory_answers.py" | sed -n 's/^\(commands[^:]*\): .*/\1/p' | sort -u > "$room/found"
  find "$room/judge" -mindepth 1 -maxdepth 1 -printf '%f\n' | sort | comm -23 - "$room/found" | sed 's/.*/judge.&: memory_answers.py accepts a wrong output/'
}

cc -O2 -shared -fPIC -o "$room/refuse.so" "$top/scripts/refuse_each.c" -ldl
mkdir "$room/rows"
[ $# -gt 0 ] || set -- "$data"/*.rows
for file; do rows_of "${file##*/}"; done
find "$room/rows" -mindepth 1 -maxdepth 1 | LC_ALL=C sort |
  xargs -P "${ROWS_JOBS:-$(nproc)}" -I '{}' bash -c 'check "$1" || true' _ '{}' > "$room/log"
find "$room/rows" -name answers -printf '%h\n' | LC_ALL=C sort | python3 "$top/scripts/memory_answers.py" >> "$room/log" || echo 'judge.0: it failed' >> "$room/log"
try_judge >> "$room/log"
cat "$room/log"
failed=$(sed -n 's/^\([a-z.]*\.[0-9]*\): .*/\1/p' "$room/log" | sort -u | wc -l)
passed=$(($(find "$room/rows" -name row | wc -l) + judged - failed))
find "$room/rows" -name answers -exec tail -qn 1 '{}' + > "$room/tried"
find "$room/rows" -name count -exec head -qn 1 '{}' + |
  awk -v tried="$room/tried" '{ all += $1 } END {
    while ((getline line < tried) > 0) { split(line, words, " "); refused += words[1]; seconds += words[2] }
    printf "%d of %d allocations failed in turn, which took %d processor seconds\n", refused, all, seconds }'
echo "$passed passed, $failed failed"
[ "$failed" = 0 ]
