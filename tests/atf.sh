# shellcheck shell=sh
# The part of the ATF interface (atf-test-program(1)) that the programs of this suite need, with the functions of lib.sh:
#
#   -l                               prints the cases, each with its properties
#   -rFILE -sDIRECTORY NAME          runs a case, whose result goes into FILE
#   -sDIRECTORY NAME:cleanup         cleans up after a case
#   -vNAME=VALUE                     is a variable of the test suite
#
# A program sources this file, declares its cases, and ends with `atf`.
. "$(dirname "$0")/lib.sh"
listing='Content-Type: application/X-atf-tp; version="1"'
result=/dev/null
asked=
for word; do
    case $word in
        -l) asked=-l ;;
        -r*) result=${word#-r} ;;
        -s* | -v*) ;;
        *) asked=$word ;;
    esac
done

# test_case NAME [KEY: VALUE]..: declares a case with these properties, which the function NAME runs.
test_case() {
    listing="$listing

ident: $1"
    shift
    for line; do
        listing="$listing
$line"
    done
}

# row NAME ARGUMENT..: declares a case, which the function that `atf` names runs with these arguments.
row() {
    test_case "$1"
    if [ "$1" = "$asked" ]; then
        shift
        # Separate variables keep the arguments apart.
        word1=${1-} word2=${2-} word3=${3-} word4=${4-}
    fi
}

# skip REASON..: ends the case as skipped, with this reason.
skip() {
    trap - EXIT
    echo "skipped: $*" > "$result"
    exit 0
}

# conclude STATUS: writes the result of a case that ended with this status, and exits.
conclude() {
    trap - EXIT
    if [ "$1" = 0 ]; then
        echo passed > "$result"
        exit 0
    fi
    printf 'failed: %s\n' "$(printf '%s' "$why" | tr '\n' ' ')" > "$result"
    exit 1
}

# atf [FUNCTION]: runs the request of the command line. With FUNCTION, it runs the cases that `row` declared.
atf() {
    case $asked in
        -l) printf '%s\n' "$listing"; exit 0 ;;
        *:cleanup) "${asked%:cleanup}_cleanup"; exit 0 ;;
    esac
    trap 'conclude $?' EXIT
    if [ $# = 0 ]; then
        "$asked"
    else
        "$1" "$word1" "$word2" "$word3" "$word4"
    fi
}
