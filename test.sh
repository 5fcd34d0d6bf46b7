#!/usr/bin/env bash
# Tests this repository from scratch. `rt ci` checks all proofs, the mutants of must-fail, the examples and the program. Each mutant must
# be rejected at the clause that mutants-clauses.txt names, and each mutant of mutants-rejected.txt with a clause at that clause. Each
# public function must have a mutant. Then come the searches for effects without a contract, for definitions that no caller needs and for
# wrong names in pages. Then each example runs in a separate process. Last come the suite, with the program that
# was proved, and the program in dist/, if there is one.
#
#   test.sh
#
# Prints its progress, and at the end everything that failed again. The last line is 'N passed, M failed', over all parts. Exits with 0 if
# M is 0, with 2 if there is no rt, else with 1.
# rt is taken from PATH, else from the kit that RATTLE_KIT names. Without a C compiler or sqlite3 the script fails at once.
set -u -o pipefail
top=$(cd "$(dirname "$0")" && pwd)
. "$top/scripts/sources.sh"
explain "$@"
cd "$top" || exit 2
if ! command -v cc > /dev/null 2>&1; then
  echo 'test.sh: there is no C compiler cc, which the failed allocations and the interrupted reads and writes need' >&2
  echo '0 passed, 1 failed'
  exit 1
fi
if ! command -v sqlite3 > /dev/null 2>&1; then
  echo 'test.sh: there is no sqlite3, which the cases that damage a results file need' >&2
  echo '0 passed, 1 failed'
  exit 1
fi
find_rt || exit 2
room=$(mktemp -d)
trap 'rm -rf "$room"' EXIT
counts='^\([0-9]*\) passed, \([0-9]*\) failed$'
passed=0
failed=0

crates=$(grep -c '^[a-z]' crates.txt)

# Copies lines, and prints after each finished crate how many are finished.
progress() {
  local line ended=0
  while IFS= read -r line; do
    printf '%s\n' "$line"
    if [[ $line =~ ^rt:\ [a-z_]+\ (proved$|NOT\ PROVED|is\ kept:) ]]; then
      ended=$((ended + 1))
      echo "test.sh: $ended of $crates crates, $((SECONDS / 60)) minutes so far"
    fi
  done
}

# Prints the lines of a part that report failures, or its last lines if there are none.
failures() {
  grep -E -e 'NOT PROVED|NOT REJECTED|be compiled|: BAD EDIT|: NOT TRIED|^rt: FAILED|  ->  (failed|broken): |^tests: |^[a-z_-]*[.](sh|py): ' "$room/log" | head -n 20 |
    grep . || grep -v "$counts" "$room/log" | tail -n 10
}

# Runs a part of the test, prints its output, and adds its counts to the sums. A part without counts, or with a failed status but no failed
# count, counts as one failure. If a part fails, it records the failures and the command that shows them alone.
#   part NAME COMMAND_THAT_SHOWS_IT COMMAND [ARGUMENT..]
part() {
  local name=$1 shows=$2 status=0 line idle
  shift 2
  echo "test.sh: $name, after $((SECONDS / 60)) minutes"
  "$@" 2>&1 | tee "$room/log" | sed -u "s/$counts/$name: \1 passed and \2 failed/" | progress || status=$?
  line=$(sed -n "s/$counts/\1 \2/p" "$room/log" | tail -n 1)
  [ -n "$line" ] || line='0 1'
  [ "$status" = 0 ] || [ "${line#* }" != 0 ] || line="${line% *} 1"
  # rt ci passes even if a mutant can't be applied or was not tried, although the prover rejected nothing.
  idle=$(grep -c -e ': BAD EDIT' -e ': NOT TRIED' "$room/log" || true)
  line="${line% *} $((${line#* } + idle))"
  passed=$((passed + ${line% *}))
  failed=$((failed + ${line#* }))
  [ "${line#* }" = 0 ] || { echo "$name: ${line#* } failed. To see it alone: $shows"; failures | sed 's/^/  /'; } >> "$room/failed"
}

# rt runs fewer checks at once than there are processors if it estimates that memory lacks, but its estimate is twice the real use. With
# one job each, a check takes at most 5 GB, and all checks together take less processor time than with several jobs.
memory=$(sed -n 's/^MemAvailable: *\([0-9]*\) kB$/\1/p' /proc/meminfo)
[ "$((memory / $(nproc)))" -lt 5000000 ] || export RT_JOBS="${RT_JOBS:-$(nproc)}"
part 'proofs, mutants and examples' "'rt check' in the crate's directory, 'rt must-fail NAME', scripts/rows.sh" rt ci
cp "$room/log" "$room/mutants"
part 'clauses of the mutants' 'scripts/clauses.py LOG' scripts/clauses.py "$room/mutants"
part 'a mutant for each public function' scripts/mutants-public.py scripts/mutants-public.py
part 'mutants of public functions' 'scripts/mutants-rejected.sh CRATE' scripts/mutants-rejected.sh --gate
part 'effects without a contract' scripts/faults.sh scripts/faults.sh
part 'definitions' scripts/definitions.sh scripts/definitions.sh
part 'imports' scripts/circles.py scripts/circles.py
part 'pages' scripts/documents.sh scripts/documents.sh
part 'examples alone' scripts/rows_alone.sh scripts/rows_alone.sh
# rt ci leaves the program that it proved. If a proof failed, there is no program, and the suite fails, too.
part 'the suite' tests/run.sh env KYUA="$PWD/crates/kyua/out/kyua" SUITE_STEP=1 tests/run.sh
# A program that is shipped with these sources must be the program that they build.
[ ! -d dist ] || part 'the shipped program' 'scripts/dist.sh check' scripts/dist.sh check --gate
if [ "$failed" != 0 ]; then
  echo
  echo "Failures of all parts:"
  cat "$room/failed"
fi
echo "$passed passed, $failed failed"
[ "$failed" = 0 ]
