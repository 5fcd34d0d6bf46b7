# Functions for the scripts of this directory. They work in the temporary directory, and create a Kyuafile of short programs or results of
# schema 1.
. "$(dirname "$0")/../scratch.sh"
cd "$scratch"

# make_suite COUNT: creates COUNT programs that exit with 0, c0 and up, and the Kyuafile that registers them.
make_suite() {
    echo 'syntax(2)' > Kyuafile
    echo "test_suite('s')" >> Kyuafile
    i=0
    while [ $i -lt "$1" ]; do
        printf '#!/bin/sh\nexit 0\n' > "c$i"
        chmod +x "c$i"
        echo "plain_test_program{name='c$i'}" >> Kyuafile
        i=$((i + 1))
    done
}

# Creates FILE with sqlite3, with the tables of schema 1 and a finished run of COUNT entries.
#   make_old_results FILE COUNT
make_old_results() {
    sqlite3 "$1" <<SQL
CREATE TABLE meta (name TEXT PRIMARY KEY, value INTEGER NOT NULL) STRICT;
CREATE TABLE runs (id INTEGER PRIMARY KEY, started INTEGER NOT NULL, total INTEGER NOT NULL, finished INTEGER NOT NULL CHECK (finished IN (0, 1))) STRICT;
CREATE TABLE entries (run INTEGER NOT NULL REFERENCES runs (id), position INTEGER NOT NULL, program TEXT NOT NULL, case_name TEXT NOT NULL, kind INTEGER NOT NULL CHECK (kind BETWEEN 0 AND 4), reason TEXT NOT NULL, started INTEGER NOT NULL, millis INTEGER NOT NULL, body_out BLOB NOT NULL, body_err BLOB NOT NULL, clean_out BLOB NOT NULL, clean_err BLOB NOT NULL, PRIMARY KEY (run, position)) STRICT;
INSERT INTO meta (name, value) VALUES ('schema', 1);
INSERT INTO runs VALUES (1, 1700000000123, $2, 1);
WITH RECURSIVE c(x) AS (SELECT 0 UNION ALL SELECT x + 1 FROM c WHERE x + 1 < $2)
INSERT INTO entries SELECT 1, x, 'program' || x, 'main', 3, 'x<y', 1700000000123, 12, X'68690A', X'', X'', X'' FROM c;
SQL
}
