#!/bin/sh
# Checks that a killed run of 200 cases loses no line that it printed. Each line has its entry in the file, the older run is unchanged, and
# the killed run is unfinished. First the program opens the file again, then sqlite3, which the script needs.
# Exits with 0 if all hold, else with another status.
set -eu
. "$(dirname "$0")/common.sh"
find_program

make_suite 200
printf "syntax(2)\ntest_suite('s')\nplain_test_program{name='c0'}\n" > One

"$program" test -k One -r x.db --work="$scratch" > first
"$program" report -r x.db --run=1 --results-filter=passed > before

killed=0
for wanted in 1 20 90 150; do
    : > lines
    "$program" test -k Kyuafile -r x.db --work="$scratch" > lines &
    pid=$!
    until [ "$(wc -l < lines)" -ge $wanted ]; do
        kill -0 $pid 2>/dev/null || break
        sleep 0.01
    done
    kill -9 $pid 2>/dev/null || true
    wait $pid 2>/dev/null || true
    # Only complete lines: the last line may be cut.
    grep '  ->  .*]$' lines > told || true
    "$program" report -r x.db --results-filter=passed,skipped,xfail,broken,failed > shown
    if grep -Fxvf shown told; then
        echo 'these lines were printed, but are not in the file' >&2
        exit 1
    fi
    told=$(grep -c '  ->  ' lines || true)
    run=$(sqlite3 x.db 'SELECT max(id) FROM runs')
    kept=$(sqlite3 x.db "SELECT count(*) FROM entries WHERE run = $run")
    finished=$(sqlite3 x.db "SELECT finished FROM runs WHERE id = $run")
    test "$(sqlite3 x.db 'PRAGMA integrity_check')" = ok
    # At most one entry was recorded but not printed.
    test "$kept" -ge "$told"
    test "$kept" -le $((told + 1))
    if [ "$finished" = 0 ]; then
        killed=$((killed + 1))
        grep -q ', unfinished$' shown
    else
        test "$kept" = 200
    fi
    "$program" report -r x.db --run=1 --results-filter=passed | cmp - before
    echo "killed after $told lines: $kept entries, finished $finished"
done
if [ $killed = 0 ]; then
    echo 'each run ended before it was killed' >&2
    exit 1
fi
