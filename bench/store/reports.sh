#!/usr/bin/env bash
# Measures the time and the memory of reports of 1,000, 10,000 and 100,000 entries. It needs sqlite3 and a C compiler.
set -eu
. "$(dirname "$0")/common.sh"
. "$here/bench/measure.sh"
find_program

for count in 1000 10000 100000; do
    make_old_results "$count.db" "$count"
    for command in report report-junit; do
        tell "$command of $count entries" "$program" "$command" -r "$count.db"
    done
done
