#!/bin/sh
# Runs the programs of endings/ and this suite with kyua. Then it runs cases without kyua, and compares the recorded result with the
# ending of the case, by the tables of by_hand.sh. So a runner that records passes without running the cases can't pass.
#
#   run.sh                  quick: without kyua it runs the cases of endings/ alone, kyua-tools runs with one pair of a shell and an awk,
#                           and loops over calls, allocations and cases are shorter
#   SUITE_STEP=1 run.sh     everything, as in the gate; one in SUITE_STEP allocations is made to fail
#
# Prints the lines of kyua, and which cases of the suite were skipped and why. Each failure is on standard error. The last line is
# 'N passed, M failed', over the cases; skipped cases count as passed. Exits with 0 if M is 0, else with 1.
# KYUA names the program; otherwise scripts/program.sh finds or builds it. WIDTH is how many cases run at once: by default 4, or twice
# the number of processors if the run is quick.
set -eu
suite=$(cd "$(dirname "$0")" && pwd)
[ $# = 0 ] || { sed -n '2,/^set/s/^# //p' "$0"; exit; }
. "$suite/by_hand.sh"
KYUA=$(realpath -m "${KYUA:-$("$suite/../scripts/program.sh")}")
export KYUA
[ -x "$KYUA" ] || { echo "tests: there is no program $KYUA" >&2; echo '0 passed, 1 failed'; exit 1; }
quick=
if [ -z "${SUITE_STEP-}" ]; then
    quick=yes
    SUITE_BRIEF=yes SUITE_QUICK=yes
    export SUITE_BRIEF SUITE_QUICK
    WIDTH=${WIDTH:-$(($(nproc) * 2))}
fi
WIDTH=${WIDTH:-4}
# kyua syncs the results of each case, which takes most of the time. So all files are in memory if there is enough of it.
top=
if [ -z "${TMPDIR-}" ]; then top=$(mktemp -d /dev/shm/kyua.XXXXXX 2> /dev/null) || top=; fi
if [ -n "$top" ]; then
    printf '#!/bin/sh\n' > "$top/try"
    chmod +x "$top/try"
    free=$(df -Pk "$top" | awk 'NR == 2 { print $4 }')
    if [ "$free" -lt 1000000 ] || ! "$top/try" 2> /dev/null; then
        rm -rf "$top"
        top=
    fi
fi
[ -n "$top" ] || top=$(mktemp -d)
# All paths below have a space.
trap 'chmod -R u+rwX "$top" 2> /dev/null; rm -rf "$top"' EXIT
trap 'exit 1' HUP INT TERM
room="$top/a room"
mkdir "$room"
# The environment of every process of this run contains it.
SUITE_ROOM=$room
export SUITE_ROOM
passed=0
failed=0
# Without core dumps, a signal always gives the same result. dash and bash have this limit, although POSIX doesn't name it.
ulimit -c 0

# wrong TEXT..: counts a failure and prints it.
wrong() {
    failed=$((failed + 1))
    echo "tests: $*" >&2
}

# programs DIRECTORY: prints a line for each registered program: its interface, name, timeout in seconds and required programs.
programs() {
    sed -n "s/^\\([a-z]*\\)_test_program{name='\\([^']*\\)'\\(.*\\)}\$/\\1 \\2 \\3/p" "$1/Kyuafile" | while read -r kind name rest; do
        limit=$(echo "$rest" | sed -n 's/.*timeout=\([0-9]*\).*/\1/p')
        needs=$(echo "$rest" | sed -n "s/.*required_programs='\\([^']*\\)'.*/\\1/p")
        echo "$kind $name ${limit:-300} $needs"
    done
}

# runs_by_hand LIMIT PROGRAM ARGUMENT..: runs a program in the directory $hand, as kyua would. Sets status to its exit status in the
# shell, or to `limit`.
runs_by_hand() {
    limit=$1
    shift
    status=0
    begun=$(date +%s%N)
    # The shell's message about a child that dies by a signal is dropped.
    {
        (
            cd "$hand/work" || exit 125
            unset LANG LC_ALL LC_COLLATE LC_CTYPE LC_MESSAGES LC_MONETARY LC_NUMERIC LC_TIME
            TZ=UTC HOME=$PWD TMPDIR=$PWD __RUNNING_INSIDE_ATF_RUN=internal-yes-value
            SUITE_BRIEF=yes
            export TZ HOME TMPDIR __RUNNING_INSIDE_ATF_RUN SUITE_BRIEF
            if [ "$limit" = 300 ]; then exec "$@"; fi
            exec timeout -s KILL "$limit" "$@"
        ) < /dev/null > "$hand/out" 2> "$hand/err" || status=$?
    } 2> /dev/null
    if [ $status = 137 ] && [ $(($(date +%s%N) - begun)) -ge "${limit}000000000" ]; then status=limit; fi
}

# declares PROGRAM CASE KEY: prints the value of this key for a case in the program's list.
declares() {
    awk -v name="$2" -v key="$3: " '
        /^ident: / { here = substr($0, 8) == name }
        here && index($0, key) == 1 { print substr($0, length(key) + 1) }' "$room/lists/$1"
}

# by_hand DIRECTORY INTERFACE PROGRAM CASE LIMIT NEEDS: runs a case, and sets due to the expected result.
by_hand() {
    chmod -R u+rwX "$hand" 2> /dev/null || true
    rm -rf "$hand"
    mkdir -p "$hand/work"
    limit=$5
    needs=$6
    if [ "$2" = atf ]; then
        limit=$(declares "$3" "$4" timeout)
        limit=${limit:-$5}
        own=$(declares "$3" "$4" require.progs)
        needs=${own:-$6}
    fi
    # Spaces separate the elements of a property.
    # shellcheck disable=SC2086
    needed=$(missing $needs)
    if [ -n "$needed" ]; then
        due="skipped: Required program '$needed' not found"
        return
    fi
    case $2 in
        plain) runs_by_hand "$limit" "$1/$3"; due=$(plain_verdict "$status") ;;
        tap) runs_by_hand "$limit" "$1/$3"; due=$(tap_verdict "$status" "$hand/out") ;;
        atf)
            runs_by_hand "$limit" "$1/$3" "-r$hand/result" "-s$1" "$4"
            due=$(atf_verdict "$status" "$hand/result")
            case $(declares "$3" "$4" has.cleanup) in
                true | yes)
                    runs_by_hand 60 "$1/$3" "-s$1" "$4:cleanup"
                    due=$(after_cleanup "$due" "$status")
                    ;;
            esac
            ;;
    esac
}

# lists_by_hand DIRECTORY: prints a line INTERFACE PROGRAM LIMIT CASE|NEEDS for each case, in order.
lists_by_hand() {
    mkdir -p "$room/lists"
    programs "$1" | while read -r kind name limit needs; do
        if [ "$kind" = atf ]; then
            (cd "$room/lists" && "$1/$name" -l) > "$room/lists/$name" < /dev/null || echo "tests: $name lists nothing" >&2
            sed -n 's/^ident: //p' "$room/lists/$name"
        else
            echo main
        fi | while read -r case_name; do
            echo "$kind $name $limit $case_name|$needs"
        done
    done
}

# compare DIRECTORY STATUS: runs the programs of a directory with kyua, which must exit with STATUS, and each of its cases without kyua;
# in the quick form not those of the suite.
compare() {
    folder=$1
    mkdir -p "$room/work directories"
    lists_by_hand "$folder" > "$room/cases"
    sed 's/^[a-z]* \([^ ]*\) [0-9]* \(.*\)|.*/\1:\2/' "$room/cases" > "$room/due"
    "$KYUA" list -k "$folder/Kyuafile" --work="$room/work directories" > "$room/listed" || wrong "list exits with $?"
    cmp -s "$room/due" "$room/listed" || wrong "$folder: list prints other cases"
    status=0
    "$KYUA" -v parallelism="$WIDTH" test -k "$folder/Kyuafile" -r "$room/x.db" --work="$room/work directories" > "$room/printed" ||
        status=$?
    # If the cases of a run must fail, its lines would look like failures of the suite.
    [ "$2" = 1 ] || cat "$room/printed"
    [ $status = "$2" ] || wrong "$folder: kyua test exits with $status, not $2"
    [ -z "$(ls -A "$room/work directories")" ] || wrong "$folder: work directories remain"
    "$KYUA" report -r "$room/x.db" --results-filter=passed,skipped,xfail,broken,failed > "$room/report" ||
        wrong "$folder: report exits with $?"
    sed -n 's/  \[[0-9]*\.[0-9]*s\]$//p' "$room/report" > "$room/recorded"
    [ "$(wc -l < "$room/recorded")" = "$(wc -l < "$room/cases")" ] || wrong "$folder: the number of entries is not the number of cases"
    if [ "$2$quick" = 0yes ]; then
        bad=$(grep -Ec '  ->  (failed|broken|expected_failure): ' "$room/recorded" || true)
        failed=$((failed + bad))
        passed=$((passed + $(wc -l < "$room/cases") - bad))
        return
    fi
    # Twice as many cases run at once as under kyua, since most of them wait.
    rm -rf "$room/taken" "$room"/compared.*
    mkdir "$room/taken"
    for hand in $(seq $((WIDTH * 2))); do compare_some "$folder" "$2" "$room/hand $hand" > "$room/compared.$hand" & done
    wait
    passed=$((passed + $(cat "$room"/compared.* | grep -c '^passed$' || true)))
    failed=$((failed + $(cat "$room"/compared.* | grep -c '^failed$' || true)))
    [ "$(cat "$room"/compared.* | wc -l)" = "$(wc -l < "$room/cases")" ] || wrong "$folder: cases were not compared"
}

# compare_some DIRECTORY STATUS HAND: takes cases that no other process took, until there are none, and runs them in the directory HAND.
# Prints `passed` for each whose result kyua recorded and that passed, else `failed`.
compare_some() {
    hand=$3
    number=0
    while IFS= read -r line; do
        number=$((number + 1))
        # Only one process can create the file.
        (set -C; : > "$room/taken/$number") 2> /dev/null || continue
        needs=${line##*|}
        line=${line%|*}
        kind=${line%% *}
        line=${line#* }
        name=${line%% *}
        line=${line#* }
        if compare_case "$1" "$kind" "$name" "${line#* }" "${line%% *}" "$needs" "$2"; then echo passed; else echo failed; fi
    done < "$room/cases"
}

# compare_case DIRECTORY INTERFACE PROGRAM CASE LIMIT NEEDS STATUS: runs a case and compares its result. If kyua must exit with 0, each
# case must pass or be skipped.
compare_case() {
    by_hand "$1" "$2" "$3" "$4" "$5" "$6"
    if ! grep -Fxq -e "$3:$4  ->  $due" "$room/recorded"; then
        echo "tests: $3:$4 ended as '$due', but kyua recorded: $(grep -F -e "$3:$4  ->  " "$room/recorded" || echo nothing)"
    else
        case $7:${due%%:*} in
            0:failed | 0:broken | 0:expected_failure) echo "tests: $3:$4: $due" ;;
            *) return 0 ;;
        esac
    fi >&2
    cat "$hand/err" >&2 || true
    return 1
}

# Each program is registered, and each registered program exists.
for folder in "$suite" "$suite/endings"; do
    programs "$folder" | cut -d ' ' -f 2 > "$room/names"
    for file in "$folder"/*; do
        case ${file##*/} in
            Kyuafile | *.sh | *.[ch] | *.md | endings | schema1) ;;
            *) grep -Fxq -e "${file##*/}" "$room/names" || wrong "$file is not registered" ;;
        esac
    done
    while read -r name; do
        [ -e "$folder/$name" ] || wrong "$folder/$name is missing"
    done < "$room/names"
done
cp -R "$suite/endings" "$room/a checkout"
compare "$room/a checkout" 1
[ $failed != 0 ] || echo "endings/: $passed programs that pass, fail, crash and hang were recorded as they ended"
compare "$suite" 0
sed -n 's/^.*  ->  skipped: //p' "$room/recorded" > "$room/skipped"
# All processes that the cases started have ended, at most two seconds later.
if [ -r /proc/self/environ ]; then
    for _ in 1 2 3 4 5 6 7 8 9 10; do
        sleep 0.2
        left=$(env -u SUITE_ROOM grep -lz "^SUITE_ROOM=$room\$" /proc/[0-9]*/environ 2> /dev/null |
            grep -v -e "^/proc/$$/" || true)
        [ -n "$left" ] || break
    done
    for process in $left; do
        words=$({ tr "\0" " " < "${process%/environ}/cmdline"; } 2> /dev/null || true)
        [ -z "$words" ] || wrong "a process still runs: $words"
    done
fi
if [ -s "$room/skipped" ]; then
    echo "$(wc -l < "$room/skipped") cases were skipped:"
    LC_ALL=C sort "$room/skipped" | uniq -c
fi
for tool in busybox fish gawk junitparser lintian original-awk tidy zsh; do
    [ -n "$(command -v $tool)" ] || left_out="${left_out-}, $tool"
done
[ -z "${left_out-}" ] || echo "Some tests were skipped, since these tools are missing: ${left_out#, }"
[ -z "$quick" ] || echo 'This was the quick form: SUITE_STEP=1 runs everything.'
echo "$passed passed, $failed failed"
[ $failed = 0 ]
