#!/bin/sh
# Checks that kyua and sqlite3 read each other's files. kyua shows a file that sqlite3 created with the same tables, and leaves it intact.
# The script needs sqlite3. Exits with 0 if all hold, else with another status.
set -eu
. "$(dirname "$0")/common.sh"
find_program

make_old_results made.db 1

cat > wanted <<'TEXT'
===> Failed tests
program0:main  ->  failed: x<y  [0.012s]
===> Summary
Run 1, started 2023-11-14T22:13:20.123Z
Test cases: 1 total, 0 skipped, 0 expected failures, 0 broken, 1 failed
Total time: 0.012s
TEXT
"$program" report -r made.db > shown
cmp wanted shown
test "$(sqlite3 made.db 'PRAGMA integrity_check')" = ok
# It was created with schema 1, and has schema 2 now.
test "$(sqlite3 made.db 'SELECT name, value FROM meta')" = 'schema|2'
test "$(sqlite3 made.db 'SELECT count(*) FROM props')" = 0
"$program" report -r made.db > shown
cmp wanted shown

# A new file, created by kyua.
"$program" report -r new.db > told && exit 1 || test $? = 2
test "$(cat told)" = 'kyua: E: no runs'
test "$(sqlite3 new.db 'PRAGMA integrity_check')" = ok
test "$(sqlite3 new.db 'SELECT name, value FROM meta')" = 'schema|2'
test "$(sqlite3 new.db 'SELECT count(*) FROM runs')" = 0

# A file with another schema.
sqlite3 new.db 'UPDATE meta SET value = 9'
"$program" report -r new.db > told && exit 1 || test $? = 2
test "$(cat told)" = 'kyua: E: results store failed'
echo 'sqlite3 and kyua agree'
