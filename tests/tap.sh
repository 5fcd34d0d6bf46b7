# shellcheck shell=sh
# Functions for the TAP programs of this suite, with the functions of lib.sh. Each `holds` and each `beside` is a test, and `plan` ends the
# program.
. "$(dirname "$0")/lib.sh"
count=0
bad=0
apart=0

# holds NAME COMMAND [ARGUMENT]..: a test with this name, which is ok if the command succeeds. It runs in a subshell, so a failed test
# doesn't end the others.
holds() {
    name=$1
    shift
    count=$((count + 1))
    set +e
    (set -e; "$@") >&2
    held=$?
    set -e
    if [ $held = 0 ]; then
        echo "ok $count - $name"
    else
        echo "not ok $count - $name"
        echo "test failed: $name" >&2
        bad=1
    fi
}

# beside NAME COMMAND [ARGUMENT]..: a test that starts now, in a new empty directory, and runs at the same time as the following tests.
beside() {
    apart=$((apart + 1))
    mkdir "apart $apart"
    echo "$1" > "apart $apart/name"
    shift
    (
        cd "apart $apart"
        set +e
        (set -e; "$@") > said 2>&1
        echo $? > status
    ) < /dev/null &
}

# went_through DIRECTORY: checks that the test that `beside` started in this directory succeeded.
went_through() {
    [ "$(cat "$1/status")" = 0 ] || { cat "$1/said"; fail 'the command failed'; }
}

# plan: waits for the tests of `beside`, prints the number of tests, and ends the program.
plan() {
    [ $apart = 0 ] || wait
    for place in $(seq $apart); do holds "$(cat "apart $place/name")" went_through "apart $place"; done
    echo "1..$count"
    exit $bad
}
