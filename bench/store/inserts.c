/* Says how long sqlite3 takes for so many durable inserts of entries into a new file, each with so many pairs, in a commit of its own. */
#include <sqlite3.h>
#include <stdio.h>
#include <stdlib.h>
#include <time.h>

static sqlite3 *db;

static void run(const char *sql) {
    char *said = NULL;
    if (sqlite3_exec(db, sql, NULL, NULL, &said) != SQLITE_OK) {
        fprintf(stderr, "%s\n", said);
        exit(1);
    }
}

static void step(sqlite3_stmt *statement) {
    if (sqlite3_step(statement) != SQLITE_DONE || sqlite3_reset(statement) != SQLITE_OK)
        exit(1);
}

static long now(void) {
    struct timespec t;
    clock_gettime(CLOCK_MONOTONIC, &t);
    return t.tv_sec * 1000 + t.tv_nsec / 1000000;
}

int main(int argc, char **argv) {
    if (argc != 4 || sqlite3_open(argv[1], &db) != SQLITE_OK)
        return 1;
    int count = atoi(argv[2]), pairs = atoi(argv[3]);
    run("PRAGMA journal_mode = WAL; PRAGMA synchronous = FULL; PRAGMA foreign_keys = ON;");
    run("CREATE TABLE runs (id INTEGER PRIMARY KEY, started INTEGER NOT NULL, total INTEGER NOT NULL, finished INTEGER NOT NULL CHECK (finished IN (0, 1))) STRICT;"
        "CREATE TABLE entries (run INTEGER NOT NULL REFERENCES runs (id), position INTEGER NOT NULL, program TEXT NOT NULL, case_name TEXT NOT NULL, kind INTEGER NOT NULL CHECK (kind BETWEEN 0 AND 4), reason TEXT NOT NULL, started INTEGER NOT NULL, millis INTEGER NOT NULL, body_out BLOB NOT NULL, body_err BLOB NOT NULL, clean_out BLOB NOT NULL, clean_err BLOB NOT NULL, PRIMARY KEY (run, position)) STRICT;"
        "CREATE TABLE props (run INTEGER NOT NULL, position INTEGER NOT NULL, place INTEGER NOT NULL, name TEXT NOT NULL, value TEXT NOT NULL, PRIMARY KEY (run, position, place)) STRICT;"
        "INSERT INTO runs VALUES (1, 0, 1000000, 0);");
    sqlite3_stmt *insert, *pair, *begin, *commit;
    if (sqlite3_prepare_v2(db, "INSERT INTO entries VALUES (1, ?1, 'program' || ?1, 'main', 3, 'Returned non-success exit status 1', 1700000000123, 12, X'68690A', X'', X'', X'')", -1, &insert, NULL) != SQLITE_OK
        || sqlite3_prepare_v2(db, "INSERT INTO props VALUES (1, ?1, ?2, 'custom.property' || ?2, 'a value of some words')", -1, &pair, NULL) != SQLITE_OK
        || sqlite3_prepare_v2(db, "BEGIN", -1, &begin, NULL) != SQLITE_OK || sqlite3_prepare_v2(db, "COMMIT", -1, &commit, NULL) != SQLITE_OK)
        return 1;
    long begun = now(), start = begun, first = 0, last = 0;
    for (int position = 0; position < count; position++) {
        sqlite3_bind_int(insert, 1, position);
        sqlite3_bind_int(pair, 1, position);
        step(begin);
        step(insert);
        for (int place = 0; place < pairs; place++) {
            sqlite3_bind_int(pair, 2, place);
            step(pair);
        }
        step(commit);
        if ((position + 1) % 1000 == 0) {
            last = now() - start;
            start = now();
            if (position == 999)
                first = last;
        }
    }
    printf("%d inserts with %d pairs by sqlite3: %ld ms; the first 1000 %ld ms, the last 1000 %ld ms\n", count, pairs, now() - begun, first, last);
    return 0;
}
