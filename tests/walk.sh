# shellcheck shell=sh disable=SC2154 # lib.sh sets these variables.
# Functions that run the commands which a document shows, and compare their output with the shown output. Sourced after lib.sh.

# displays PAGE: prints the displays of a manual page without markup, each after a line `==`.
displays() {
    awk '/^\.Bd/ { inside = 1; print "=="; next } /^\.Ed/ { inside = 0 } inside; /^\.Dl / { print "=="; print substr($0, 5) }' "$1" |
        sed -e 's/\\e/\\/g' -e 's/^\\&//'
}

# shown PAGE: prints its displays that begin with a command. Paths in /tmp and of the installed examples become paths of this directory.
shown() {
    displays "$1" | awk '/^==$/ { fresh = 1; next } fresh { fresh = 0; told = /^\$ / } told' |
        sed -e 's|/tmp/||g' -e 's|/usr/local/share/kyua/examples|.|g'
}

# walk FILE: FILE contains commands, on lines that begin with `$ `, each followed by its output, or by nothing if the output isn't shown.
# They run in the working directory, one after the other; kyua and ./kyua.sh are the runner that is tested. Times and timestamps are not
# compared. The results of lines_test, which needs atf-sh, aren't either. A command whose program isn't installed is skipped.
walk() {
    mkdir -p bin walk
    printf '#!/bin/sh\nexec "%s" "$@"\n' "$(realpath "$kyua")" > bin/kyua
    printf '#!/bin/sh\nKYUA="%s"; export KYUA\nexec "%s" "$@"\n' "$(realpath "$kyua")" "$(realpath "$suite/../tools/kyua-tools")" > bin/kyua-tools
    chmod +x bin/kyua bin/kyua-tools
    [ -e kyua.sh ] || cp bin/kyua kyua.sh
    awk '/^\$ / { n++; print substr($0, 3) > ("walk/command." n); printf "" > ("walk/due." n); next }
         n { print > ("walk/due." n) }' "$1"
    n=0
    while n=$((n + 1)) && [ -e walk/command.$n ]; do
        program=$(sed -n 's/^\([a-z0-9-]*\) .*/\1/p' walk/command.$n)
        PATH=$PWD/bin:$PATH command -v "${program:-sh}" > walk/path || continue
        # The status of a command that shows a bad case is not an error.
        PATH=$PWD/bin:$PATH sh walk/command.$n > walk/found.$n 2>&1 < /dev/null || :
        for text in due found; do
            sed -e 's/[0-9]*\.[0-9][0-9][0-9]s/TIME/' -e 's/time="[0-9.]*"/time="TIME"/' -e 's/started [0-9TZ:.-]*/started MOMENT/' \
                -e 's/^\(text\/lines_test:[a-z_]*  ->  \).*/\1RESULT/' walk/$text.$n > walk/plain.$text
        done
        [ ! -s walk/due.$n ] || cmp walk/plain.due walk/plain.found >&2 || {
            cat walk/command.$n walk/found.$n >&2
            fail "the output differs from $1"
        }
    done
    [ $n -gt 1 ] || fail "no command in $1"
    rm -rf walk
}
