# shellcheck shell=sh
# Computes the verdict of a case from its status in the shell, by the tables of docs/formats/verdicts.md. run.sh sources this file and
# compares this verdict with kyua's.

# ending STATUS: prints how a program ended, by its status in the shell.
ending() {
    if [ "$1" -gt 128 ] && [ "$1" -le 192 ]; then echo "received signal $(($1 - 128))"; else echo "exited with code $1"; fi
}

# plain_verdict STATUS: prints the verdict of a plain program.
plain_verdict() {
    case $1 in
        limit) echo 'broken: Test case timed out' ;;
        0) echo passed ;;
        126 | 127) echo 'broken: Test program could not be started' ;;
        129 | 1[3-8][0-9] | 19[0-2]) echo "broken: Received signal $(($1 - 128))" ;;
        *) echo "failed: Returned non-success exit status $1" ;;
    esac
}

# tap_verdict STATUS FILE: prints the verdict of a TAP program, whose output is FILE.
tap_verdict() {
    case $1 in
        limit | 126 | 127 | 129 | 1[3-8][0-9] | 19[0-2]) plain_verdict "$1"; return ;;
    esac
    awk -v status="$1" '
        BEGIN { plans = tests = failed = 0; number = -1; reason = "" }
        { sub(/\r$/, "") }
        /^Bail out!/ { bailed = 1; exit }
        /^1\.\.[0-9]+[ \t]*(#.*)?$/ {
            plans++
            number = substr($0, 4) + 0
            at = match(tolower($0), /#[ \t]*(skip|todo)[^ \t]*/)
            reason = at ? substr($0, RSTART + RLENGTH) : ""
            sub(/^[ \t]+/, "", reason)
            sub(/[ \t]+$/, "", reason)
        }
        /^(not )?ok([ \t].*)?$/ {
            tests++
            if (/^not/ && tolower($0) !~ /(^|[^\\])#[ \t]*(skip|todo)/) failed++
        }
        END {
            invalid = "broken: TAP test program yielded invalid data: "
            if (bailed) print "failed: Bailed out"
            else if (plans == 0) print invalid "no plan"
            else if (plans > 1) print invalid "second plan"
            else if (number != tests) print invalid "plan differs from tests"
            else if (tests == 0) print "skipped: " (reason == "" ? "No reason given" : reason)
            else if (failed > 0) print "failed: " failed " of " tests " tests failed"
            else if (status == 0) print "passed"
            else print "broken: Dubious test program: reported all tests as passed but returned exit code " status
        }' "$2"
}

# claim_fault FILE: prints the error of a result file, or nothing.
claim_fault() {
    size=$(wc -c < "$1")
    if [ "$size" -gt 65536 ]; then echo 'too long'
    elif [ "$size" = 0 ]; then echo empty
    elif [ "$(tail -c 1 "$1" | wc -l)" = 0 ]; then echo 'no final newline'
    elif [ "$(wc -l < "$1")" -gt 1 ]; then echo 'several lines'
    else
        word=$(LC_ALL=C sed 's/[^a-z_].*//' "$1")
        rest=$(LC_ALL=C sed 's/^[a-z_]*//' "$1")
        case $word in
            passed | failed | skipped | expected_death | expected_failure | expected_timeout | expected_exit | expected_signal) ;;
            *) echo 'unknown word'; return ;;
        esac
        case $rest in
            '('*)
                inside=$(printf '%s' "$rest" | sed -n 's/^(\([0-9][0-9]*\)).*/\1/p')
                case $word in expected_exit | expected_signal) ;; *) inside= ;; esac
                if [ -z "$inside" ] || [ "$inside" -gt 255 ]; then echo 'bad number'; return; fi
                rest=${rest#*\)}
                ;;
        esac
        case $word:$rest in
            passed:) ;;
            passed:*) echo 'unexpected reason' ;;
            *': '?*) ;;
            *) echo 'no reason' ;;
        esac
    fi
}

# atf_verdict STATUS FILE: prints the verdict of the body of an ATF case, whose result file is FILE.
atf_verdict() {
    claim=
    [ ! -f "$2" ] || claim=$(cat "$2")
    why=${claim#*: }
    if [ "$1" = limit ]; then
        case $claim in
            expected_timeout:*) echo "expected_failure: $why" ;;
            *) echo 'broken: Test case body timed out' ;;
        esac
        return
    fi
    case $1 in 126 | 127) echo 'broken: Test program could not be started'; return ;; esac
    end=$(ending "$1")
    if [ ! -e "$2" ]; then echo "broken: Premature exit; test case $end"; return; fi
    if [ ! -f "$2" ] || [ -L "$2" ]; then echo 'broken: Results file could not be read'; return; fi
    fault=$(claim_fault "$2")
    if [ -n "$fault" ]; then echo "broken: Invalid result file: $fault"; return; fi
    wanted=$(printf '%s' "$claim" | sed -n 's/^[a-z_]*(0*\([0-9][0-9]*\)).*/\1/p')
    found=${end##* }
    case $claim:$end in
        passed:'exited with code 0') echo passed ;;
        skipped*:'exited with code 0') echo "skipped: $why" ;;
        expected_failure*:'exited with code 0') echo "expected_failure: $why" ;;
        passed*) echo "broken: Passed test case should have reported success but $end" ;;
        skipped*) echo "broken: Skipped test case should have reported success but $end" ;;
        expected_failure*) echo "broken: Expected failure should have reported success but $end" ;;
        failed*:'exited with code 1') echo "failed: $why" ;;
        failed*) echo "broken: Failed test case should have reported failure but $end" ;;
        expected_death*) echo "expected_failure: $why" ;;
        expected_exit*:received*) echo "broken: Expected clean exit but $end" ;;
        expected_signal*:exited*) echo "broken: Expected signal but $end" ;;
        expected_timeout*) echo "broken: Expected timeout but $end" ;;
        *)
            if [ "${wanted:-$found}" = "$found" ]; then echo "expected_failure: $why"
            elif [ "${claim#expected_exit}" != "$claim" ]; then echo "failed: Expected exit code $wanted but got $found"
            else echo "failed: Expected signal $wanted but got $found"; fi
            ;;
    esac
}

# after_cleanup VERDICT STATUS: prints the verdict of a case whose cleanup ended with this status.
after_cleanup() {
    case $1:$2 in
        failed* | broken* | *:0) echo "$1" ;;
        *:126 | *:127) echo 'broken: Test case cleanup could not be started' ;;
        *) echo 'broken: Test case cleanup did not terminate successfully' ;;
    esac
}

# missing PROGRAM..: prints the first of these programs that no directory of PATH contains, or nothing.
missing() {
    for word; do
        [ -n "$(command -v "$word")" ] || { echo "$word"; return; }
    done
}
