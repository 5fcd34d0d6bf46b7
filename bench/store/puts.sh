#!/bin/sh
# Measures how long 1,000, 10,000 and 100,000 puts into a new file take, each durable before the next, without properties and with seven
# each. It measures as many durable inserts by sqlite3 on the same disk, too. Then it measures how long it takes to open a file of 100,000
# entries, with schema 1 and with schema 2.
# The script needs sqlite3, its headers and a C compiler. The files are in the temporary directory: TMPDIR selects the disk that is measured.
set -eu
. "$(dirname "$0")/common.sh"
make_checkout store 'kt_base kt_store sqlite' kt_base kt_store
build_bench store
cc -O2 -o inserts "$here/bench/store/inserts.c" -lsqlite3
for pairs in 0 7; do
    for count in 1000 10000 100000; do
        for _ in 1 2 3; do
            "$bench" "kyua$count.db" "$count" "$pairs"
            ./inserts "sqlite$count.db" "$count" "$pairs"
            rm -f "kyua$count.db"* "sqlite$count.db"*
            if [ "$count" = 100000 ]; then
                break
            fi
        done
    done
done
make_old_results 100000.db 100000
for schema in 1 2; do
    echo "100,000 entries of schema $schema: $("$bench" 100000.db)"
done
