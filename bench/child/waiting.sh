#!/usr/bin/env bash
# Checks how late the runner notices the ends of short cases next to long ones, at the widths 8, 64 and 256. The mean delay must be at most
# 1, 1 and 2 milliseconds. Then it checks how much of a processor the runner takes while a case ends each half second. That must be at most
# 1, 1.5 and 3 per cent.
# Exits with 0 if all hold, with 1 at the first that doesn't. KYUA names the program to measure; otherwise it is the one that kyua.sh runs. The
# script takes a minute and a half, and needs a C compiler and a quiet machine. With the prefix `chrt -f 10` it doesn't wait for other
# processes, but on a busy machine it takes more processor time.
set -eu
. "$(dirname "$0")/../scratch.sh"
find_program
cd "$scratch"
printf '#!/bin/sh\nexec sleep 25\n' > long
printf '#!/bin/sh\nexec sleep 0.5\n' > short
printf '#!/bin/sh\nexec sleep 4\n' > longer
chmod +x long short longer
. "$here/bench/child/late.sh"
for millis in 20 24 28 32 36 40; do ends_of "$millis"; done
#   spent PID: prints the processor time of a process in hundredths of a second
spent() {
  cut -d ')' -f 2 "/proc/$1/stat" | awk '{ print $12 + $13 }'
}
#   late_beside WIDTH MICROSECONDS: checks that the mean delay of cases of 20 to 40 ms next to longer ones is at most MICROSECONDS
late_beside() {
  {
    printf '%s\n' 'syntax(2)' "test_suite('s')"
    for _ in $(seq 2 "$1"); do echo "plain_test_program{name='longer'}"; done
    for _ in $(seq 10); do
      for millis in 20 24 28 32 36 40; do echo "plain_test_program{name='ends.$millis'}"; done
    done
  } > Kyuafile
  late "$1" "$2"
}
#   waiting WIDTH TENTHS: checks that the runner takes at most TENTHS tenths of a per cent of a processor
waiting() {
  {
    printf '%s\n' 'syntax(2)' "test_suite('s')"
    for _ in $(seq 2 "$1"); do echo "plain_test_program{name='long'}"; done
    for _ in $(seq 45); do echo "plain_test_program{name='short'}"; done
  } > Kyuafile
  "$program" -v parallelism="$1" test -r "$1.db" --work="$scratch" > out &
  sleep 3
  before=$(spent $!)
  sleep 20
  # Hundredths of a second in 20 seconds: half of a tenth of a per cent each.
  tenths=$((($(spent $!) - before + 1) / 2))
  wait $!
  echo "width $1: $((tenths / 10)).$((tenths % 10)) % of a processor; $(($2 / 10)).$(($2 % 10)) are allowed"
  [ "$tenths" -le "$2" ]
}
late_beside 8 1000
late_beside 64 1000
late_beside 256 2000
waiting 8 10
waiting 64 15
waiting 256 30
