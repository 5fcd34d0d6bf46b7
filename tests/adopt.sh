# shellcheck shell=sh
# Functions for the programs that test adopt. They source this file after scripts.sh.

# runs_adopt STATUS KIND COMMAND..: registers the tests of a runner in kt, and checks that adopt exits with STATUS.
runs_adopt() {
    exit_due=$1
    kind=$2
    shift 2
    rm -rf kt
    comes_to "$exit_due" adopt "$kind" kt s -- "$@"
}
# adopts COUNT KIND COMMAND..: registers the tests of a runner in kt, and checks that there are COUNT of them.
adopts() {
    count=$1
    shift
    runs_adopt 0 "$@"
    says "kt/Kyuafile has $count test cases\n"
}
# comes_out STATUS FORMAT [FILTER]..: checks that a run of kt exits with STATUS and prints this text, except the times.
comes_out() {
    rm -f x.db*
    exit_due=$1
    text=$2
    shift 2
    tests "$exit_due" "$text" -k kt/Kyuafile "$@"
}
# is_refused TEXT KIND COMMAND..: checks that adopt prints this text, exits with 2 and leaves no directory.
is_refused() {
    text=$1
    shift
    runs_adopt 2 "$@"
    has "$text" err
    [ ! -e kt ] || fail 'a directory remains'
}
# vanishes TEXT CASE: checks that a test case whose test no longer exists has no result, and prints this text on standard error.
vanishes() {
    status=0
    "kt/${2%%:*}" -r"$PWD/result" -s. "${2#*:}" > out 2> err || status=$?
    [ $status != 0 ] && [ ! -e result ] || fail "exit $status, or a result: $2"
    has "$1" err
}
