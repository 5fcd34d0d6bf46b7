# shellcheck shell=sh disable=SC2034,SC2120 # The programs of the suite use these variables and arguments.
# Functions for the programs of this suite, which source this file first. KYUA names the runner that is tested; otherwise
# scripts/program.sh finds it. A failed check ends the program, and prints the expected and the found text on standard error.
set -eu
suite=$(cd "$(dirname "$0")" && pwd)
kyua=${KYUA:-$("$suite/../scripts/program.sh")}
all=passed,skipped,xfail,broken,failed
why='a command failed'

# fail TEXT..: ends the program as failed, with this text.
fail() {
    why=$*
    echo "$why" >&2
    exit 1
}

# runs STATUS ARGUMENT..: runs kyua with these arguments, and writes its output to the files out and err. It must exit with STATUS. Its
# standard input is a text, which no case may read.
runs() {
    wanted=$1
    shift
    status=0
    "$kyua" "$@" > out 2> err < "$suite/lib.sh" || status=$?
    [ "$status" = "$wanted" ] || { cat out err >&2; fail "exit $status, not $wanted: kyua $*"; }
}

# same EXPECTED FOUND: checks that the two files have the same bytes.
same() {
    cmp "$1" "$2" >&2 || { echo "expected:"; cat "$1"; echo "found:"; cat "$2"; fail "the text differs"; } >&2
}

# prints FORMAT: checks that the last run printed this text, a format of printf, and nothing on standard error.
prints() {
    printf -- "$1" > wanted
    same wanted out
    [ ! -s err ] || { cat err >&2; fail 'something on standard error'; }
}

# without_times: removes the time of each case from the last output.
without_times() {
    sed -e 's/  \[[0-9]*\.[0-9][0-9][0-9]s\]$//' out > timeless
    mv timeless out
}

# records FORMAT: checks that the last run printed this text, without the time of each case.
records() {
    without_times
    prints "$1"
}

# complains FORMAT: checks that the last run printed this text on standard error, and nothing on standard output.
complains() {
    printf -- "$1" > wanted
    same wanted err
    [ ! -s out ] || { cat out >&2; fail 'something on standard output'; }
}

# tells STATUS FORMAT ARGUMENT..: checks that kyua with these arguments exits with STATUS and prints this text.
tells() {
    exit_due=$1
    text_due=$2
    shift 2
    runs "$exit_due" "$@"
    prints "$text_due"
}

# lists FORMAT ARGUMENT..: checks that a listing with these arguments prints this text.
lists() {
    text=$1
    shift
    runs 0 list --work="$PWD" "$@"
    prints "$text"
}

# tests STATUS FORMAT ARGUMENT..: checks that a run with these arguments exits with STATUS and prints this text, without the time of each
# case.
tests() {
    text=$2
    status=$1
    shift 2
    runs "$status" test -r x.db --work="$PWD" "$@"
    records "$text"
}

# ends_as RESULT NAME: checks that a run of the Kyuafile, which has one case, records this result.
ends_as() {
    case ${1%%:*} in
        passed | skipped | expected_failure) status=0 totals='1/1 passed (0 failed)' ;;
        *) status=1 totals='0/1 passed (1 failed)' ;;
    esac
    runs $status test -r x.db --work="$PWD"
    without_times
    printf '%s  ->  %s\n\n%s\n' "$2" "$1" "$totals" > wanted
    same wanted out
}

# program NAME: creates a program from standard input, a script of sh.
program() {
    { echo '#!/bin/sh'; cat; } > "$1"
    chmod +x "$1"
}

# tap_program NAME STREAM: creates a program that prints this format, and then runs standard input, a script of sh.
tap_program() {
    printf "$2" > "$1.stream"
    { echo 'cat "$0.stream"'; cat; } | program "$1"
}

# The start of a list of ATF cases: its first line and an empty line.
header='Content-Type: application/X-atf-tp; version="1"\n\n'

# atf_program NAME LIST: creates an ATF program from standard input, a script of sh. In it name is the name of the case, result its result
# file, and source its directory. The program lists the header and the output of the format LIST.
atf_program() {
    printf "$header$2" > "$1.list"
    {
        cat <<'P'
for word; do
    case $word in
        -l) cat "$0.list"; exit 0 ;;
        -r*) result=${word#-r} ;;
        -s*) source=${word#-s} ;;
        -v*) ;;
        *) name=$word ;;
    esac
done
P
        cat
    } | program "$1"
}

# tree LINE..: creates a Kyuafile of these lines, after two lines that name the suite s.
tree() {
    printf '%s\n' 'syntax(2)' "test_suite('s')" "$@" > Kyuafile
}

# kyuafile NAME..: creates a Kyuafile of these plain programs.
kyuafile() {
    tree
    for name; do
        echo "plain_test_program{name='$name'}" >> Kyuafile
    done
}

# one_program: creates a Kyuafile of one program, good, which passes.
one_program() {
    echo 'exit 0' | program good
    kyuafile good
}

# without_spaces: changes to a new directory whose path has no space, since atf-sh fails in a path with spaces.
without_spaces() {
    [ -z "${SUITE_ROOM-}" ] || cd "$(mktemp -d "${SUITE_ROOM%/*}/plain.XXXXXX")" || fail 'no other directory'
}

# waits_for COMMAND ARGUMENT..: waits until this command succeeds, and fails after 10 seconds.
waits_for() {
    turns=0
    until "$@"; do
        turns=$((turns + 1))
        [ $turns -lt 200 ] || fail "it never succeeded: $*"
        sleep 0.05
    done
}

# has_lines COUNT FILE: succeeds if the file has at least COUNT lines.
has_lines() {
    [ "$(wc -l < "$2")" -ge "$1" ]
}
