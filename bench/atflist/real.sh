#!/bin/sh
# Checks that the examples of kt_rows contain the lists that atf-sh and libatf-c print. It needs Debian's atf-sh and libatf-dev, and a C
# compiler, and writes only in a temporary directory. Exits with 0 if the examples contain all lists, else with 1.
set -eu
top=$(cd "$(dirname "$0")/../.." && pwd)
. "$top/scripts/sources.sh"
explain "$@"
rows=$top/crates/kt_rows/data/lists.rows
scratch=$(mktemp -d)
trap 'rm -rf "$scratch"' EXIT
cd "$scratch"

cat > three <<'P'
#!/usr/bin/env atf-sh
atf_test_case plain
plain_head() { atf_set "descr" "Checks a thing"; }
plain_body() { :; }
atf_test_case full cleanup
full_head() {
    atf_set "descr" "All of them: with a colon"
    atf_set "require.arch" "x86_64 i386"
    atf_set "require.config" "db"
    atf_set "require.files" "/etc/passwd /etc/group"
    atf_set "require.memory" "64m"
    atf_set "require.machine" "amd64"
    atf_set "require.progs" "sh /bin/ls"
    atf_set "require.user" "root"
    atf_set "timeout" "30"
    atf_set "X-bug" "PR 7"
    atf_set "is.exclusive" "true"
    atf_set "require.diskspace" "1g"
}
full_body() { :; }
full_cleanup() { :; }
atf_test_case bare
bare_body() { :; }
atf_init_test_cases() { atf_add_test_case plain; atf_add_test_case full; atf_add_test_case bare; }
P
cat > one <<'P'
#!/usr/bin/env atf-sh
atf_test_case bare
bare_body() { :; }
atf_init_test_cases() { atf_add_test_case bare; }
P
cat > two.c <<'P'
#include <atf-c.h>
ATF_TC_WITH_CLEANUP(first);
ATF_TC_HEAD(first, tc) {
    atf_tc_set_md_var(tc, "descr", "The first");
    atf_tc_set_md_var(tc, "timeout", "10");
}
ATF_TC_BODY(first, tc) { }
ATF_TC_CLEANUP(first, tc) { }
ATF_TC_WITHOUT_HEAD(second);
ATF_TC_BODY(second, tc) { }
ATF_TP_ADD_TCS(tp) {
    ATF_TP_ADD_TC(tp, first);
    ATF_TP_ADD_TC(tp, second);
    return atf_no_error();
}
P
chmod +x three one
cc -o two two.c -latf-c
for program in three one two; do
    list=$("./$program" -l | awk '{ printf "%s\\n", $0 }')
    grep -Fq "list $list" "$rows" || { echo "no example has the list of $program: $list" >&2; exit 1; }
done
echo '3 lists'
