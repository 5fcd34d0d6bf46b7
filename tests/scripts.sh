# shellcheck shell=sh disable=SC2154,SC2164 # lib.sh sets these variables, and set -e.
# Functions for the programs that test the commands of kyua-tools. They source this file after lib.sh. The commands call the runner that
# is tested. RECIPES_SHELL and RECIPES_AWK are a shell and an awk for all commands, those of the system if they aren't set.
originals=$(realpath "$suite/../tools")
tools=$originals
here=$PWD
mkdir bin work
# The files that a killed runner leaves must be in this directory.
program bin/kyua <<P
for word; do
    shift
    set -- "\$@" "\$word"
    case \$word in list | test) set -- "\$@" "--work=$here/work" ;; esac
done
exec "$(realpath "$kyua")" "\$@"
P
PATH=$here/bin:$PATH
KYUA=$here/bin/kyua
export PATH KYUA

# pairs: prints a line SHELL:AWK for each installed pair that is tested.
pairs() {
    for pair in dash:mawk bash:gawk dash:'gawk --posix' 'busybox sh:busybox awk' dash:original-awk mksh:mawk yash:mawk ksh:mawk; do
        awk=${pair#*:}
        [ -z "$(command -v "${pair%%[ :]*}")" ] || [ -z "$(command -v "${awk%% *}")" ] || printf '%s\n' "$pair"
    done
}
# with_shell SHELL AWK: sets tools to a copy of the commands. This shell runs the commands and the scripts that they write, with this awk.
with_shell() {
    rm -rf "$here/shell"
    mkdir "$here/shell"
    cp -R "$originals" "$here/shell/tools"
    tools=$here/shell/tools
    arguments=${1#"${1%% *}"}
    find "$tools" -type f -exec sed -i "s|^#!/bin/sh\$|#!$(command -v "${1%% *}")$arguments|" {} +
    printf 'exec %s "$@"\n' "$1" | program "$here/shell/sh"
    printf 'exec %s "$@"\n' "$2" | program "$here/shell/awk"
    PATH=$here/shell:$PATH
}
[ -z "${RECIPES_SHELL-}" ] || with_shell "$RECIPES_SHELL" "${RECIPES_AWK:-mawk}"

# afresh: changes to an empty directory.
afresh() {
    cd "$(mktemp -d "$here/a tree.XXXXXX")"
}
# comes_to STATUS COMMAND ARGUMENT..: checks that a command with these arguments exits with STATUS. Its output is in the files told and
# err.
comes_to() {
    due=$1
    script=$2
    shift 2
    status=0
    "$tools/$script" "$@" > told 2> err < /dev/null || status=$?
    [ $status = "$due" ] || { cat told err >&2; fail "exit $status, not $due: $script $*"; }
}
# says FORMAT: checks that the last command printed this text, in which each timestamp is MOMENT and each number of seconds TIME.
says() {
    printf -- "$1" > wanted
    sed -e 's/20[0-9]*-[0-9]*-[0-9T:.]*Z/MOMENT/g' -e 's/[0-9]*\.[0-9][0-9][0-9]/TIME/g' told > found
    same wanted found
}
# has TEXT FILE..: checks that one of these files contains this text.
has() {
    text=$1
    shift
    cat "$@" | grep -Fq -e "$text" || { cat "$@" >&2; fail "it does not print: $text"; }
}
# plays NAME STRIP: creates a TAP program. Its first call has the result of the first letter of the strip, and so on: . passed, s skipped,
# F failed, B broken, z passed after more than a second. k kills the runner, and w waits for the file go.
plays() {
    printf '%s\n' "$2" > "$1.strip"
    program "$1" <<'P'
count=$(($(cat "$0.count" 2> /dev/null || echo 0) + 1))
echo $count > "$0.count"
case $(cut -c $count "$0.strip") in
    .) ;;
    s) echo '1..0 # SKIP no <tape>'; exit ;;
    F) echo '1..1'; echo 'not ok'; exit ;;
    B) exit ;;
    z) sleep 1.2 ;;
    k) kill -9 $PPID; exit ;;
    w) until [ -e "${0%/*}/go" ]; do sleep 0.05; done ;;
esac
echo '1..1'
echo ok
P
}
# registers NAME..: creates a Kyuafile of these TAP programs.
registers() {
    tree
    for name; do echo "tap_test_program{name='$name'}" >> Kyuafile; done
}
# turns COUNT: runs the tree COUNT times, one case after the other.
turns() {
    for turn in $(seq "$1"); do kyua test > "turn.$turn" || :; done
}
# plays_many COUNT: runs COUNT cases twice. The first run skips them. The second run can't start them, since their program removes itself
# after it lists them.
plays_many() {
    { printf "$header"; seq "$1" | sed 's/.*/ident: &\n/'; } > lists.list
    printf 'cat "$0.list"; rm "$0"\n' | program lists
    tree "atf_test_program{name='lists', required_programs='gone'}"
    cp lists kept
    kyua test > log || fail 'a skipped case is bad'
    mv kept lists
    tree "atf_test_program{name='lists'}"
    ! kyua -v parallelism=8 test > log || fail 'no case is bad'
}
# each_pair COMMAND [ARGUMENT]..: checks that this command succeeds with each pair of a shell and an awk, or with those of the system if the
# suite is run quickly.
each_pair() {
    [ -z "${RECIPES_SHELL-}${SUITE_QUICK-}" ] || { "$@"; return; }
    pairs > "$here/pairs"
    while IFS=: read -r shell awk; do
        (with_shell "$shell" "$awk"; "$@") < /dev/null || fail "it failed with $shell and $awk"
    done < "$here/pairs"
}
