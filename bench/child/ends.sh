#!/usr/bin/env bash
# Checks how late the runner notices the ends of cases that run alone. The median time of programs that sleep for 5 ms must be at most
# 9 ms: a runner that doesn't check for an end within its pause of 10 ms takes longer. The mean delay for cases of 185 to 205 ms must be at
# most 2 ms: a runner whose pauses end early checks seldom by then.
# Exits with 0 if both hold, else with 1. KYUA names the program to measure; otherwise it is the one that kyua.sh runs. The script needs a C
# compiler, and a quiet machine or the prefix `chrt -f 1`.
set -eu
. "$(dirname "$0")/../scratch.sh"
find_program
cd "$scratch"
. "$here/bench/child/late.sh"
#   cases COUNT NAME: creates a Kyuafile that registers a program COUNT times
cases() {
  printf '%s\n' 'syntax(2)' "test_suite('s')" > Kyuafile
  for _ in $(seq "$1"); do echo "plain_test_program{name='$2'}"; done >> Kyuafile
}
printf '#!/bin/sh\nexec sleep 0.005\n' > short
chmod +x short
cases 100 short
"$program" test -r x.db --work="$scratch" > out
grep -qx '100/100 passed (0 failed)' out
median=$(sed -n 's/^short:main  ->  passed  \[0\.0*\([0-9]*\)s\]$/\1/p' out | sort -n | sed -n 50p)
echo "the median of cases of 5 ms is $median ms; at most 9 are allowed"
[ "$median" -le 9 ]
ends_of 205
cases 40 ends.205
late 1 2000
