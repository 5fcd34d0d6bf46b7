/* What no runner can do without: it runs a program for so many cases, so many at once. Each case has a directory with a work
   directory and two files for its outputs in it. Its program is started by posix_spawn and waited for, its outputs are read, the
   directory is removed, and a line is printed. Compiled with KEEPS it also records what `kyua` does, in the same tables, by C's
   sqlite3: in one commit a case, which is on the disk before the line is printed. An ATF program, which has lists, is asked for
   each list first, and each of its cases has a result file.
     floor PROGRAM LISTS CASES WIDTH RESULTS */
#define _GNU_SOURCE
#include <errno.h>
#include <fcntl.h>
#include <spawn.h>
#include <stdio.h>
#include <stdlib.h>
#include <sys/stat.h>
#include <sys/wait.h>
#include <time.h>
#include <unistd.h>

extern char **environ;

/* What a case has in the scratch folder. */
enum { ALL, WORK, OUT, ERR, RESULT, PLACES };
static const char *const names[PLACES] = {"", "/work", "/out", "/err", "/result"};

struct run {
    long number;
    long started;
    pid_t child;
    char paths[PLACES][40];
};

struct text {
    char *bytes;
    size_t length, size;
};

static void need(int good, const char *what)
{
    if (!good) {
        perror(what);
        exit(2);
    }
}

/* Milliseconds since 1970. */
static long now(void)
{
    struct timespec time;
    clock_gettime(CLOCK_REALTIME, &time);
    return time.tv_sec * 1000 + time.tv_nsec / 1000000;
}

#ifdef KEEPS
#include <sqlite3.h>

static sqlite3 *results;
static sqlite3_stmt *begin, *entry, *pairs, *commit;

static void tell(const char *sql)
{
    need(sqlite3_exec(results, sql, NULL, NULL, NULL) == SQLITE_OK, sql);
}

static sqlite3_stmt *prepare(const char *sql)
{
    sqlite3_stmt *statement;
    need(sqlite3_prepare_v2(results, sql, -1, &statement, NULL) == SQLITE_OK, sql);
    return statement;
}

static void step(sqlite3_stmt *statement)
{
    need(sqlite3_step(statement) == SQLITE_DONE && sqlite3_reset(statement) == SQLITE_OK, "sqlite3");
}

/* Begins a run in a file, which may have older ones. */
static void open_results(const char *file, long cases)
{
    char run[100];
    need(sqlite3_open(file, &results) == SQLITE_OK, file);
    tell("PRAGMA locking_mode = EXCLUSIVE; PRAGMA journal_mode = WAL; PRAGMA synchronous = FULL; PRAGMA foreign_keys = ON;");
    tell("CREATE TABLE IF NOT EXISTS meta (name TEXT PRIMARY KEY, value INTEGER NOT NULL) STRICT;"
         "INSERT OR IGNORE INTO meta VALUES ('schema', 2);"
         "CREATE TABLE IF NOT EXISTS runs (id INTEGER PRIMARY KEY, started INTEGER NOT NULL, total INTEGER NOT NULL,"
         "  finished INTEGER NOT NULL CHECK (finished IN (0, 1))) STRICT;"
         "CREATE TABLE IF NOT EXISTS entries (run INTEGER NOT NULL REFERENCES runs (id), position INTEGER NOT NULL,"
         "  program TEXT NOT NULL, case_name TEXT NOT NULL, kind INTEGER NOT NULL CHECK (kind BETWEEN 0 AND 4),"
         "  reason TEXT NOT NULL, started INTEGER NOT NULL, millis INTEGER NOT NULL, body_out BLOB NOT NULL, body_err BLOB NOT NULL,"
         "  clean_out BLOB NOT NULL, clean_err BLOB NOT NULL, PRIMARY KEY (run, position)) STRICT;"
         "CREATE TABLE IF NOT EXISTS props (run INTEGER NOT NULL, position INTEGER NOT NULL, place INTEGER NOT NULL,"
         "  name TEXT NOT NULL, value TEXT NOT NULL, PRIMARY KEY (run, position, place)) STRICT;");
    snprintf(run, sizeof run, "INSERT INTO runs (started, total, finished) VALUES (%ld, %ld, 0)", now(), cases);
    tell(run);
    begin = prepare("BEGIN");
    entry = prepare("INSERT INTO entries VALUES (?1, ?2, ?3, 'main', 0, '', ?4, ?5, ?6, ?7, X'', X'')");
    pairs = prepare("INSERT INTO props VALUES (?1, ?2, 0, 'has_cleanup', 'false'), (?1, ?2, 1, 'is_exclusive', 'false'),"
                    "  (?1, ?2, 2, 'required_disk_space', '0'), (?1, ?2, 3, 'required_memory', '0'), (?1, ?2, 4, 'timeout', '300')");
    commit = prepare("COMMIT");
    sqlite3_bind_int64(entry, 1, sqlite3_last_insert_rowid(results));
    sqlite3_bind_int64(pairs, 1, sqlite3_last_insert_rowid(results));
}

static void keep(const struct run *run, const char *program, long millis, const struct text *out, const struct text *err)
{
    sqlite3_bind_int64(entry, 2, run->number);
    sqlite3_bind_text(entry, 3, program, -1, SQLITE_STATIC);
    sqlite3_bind_int64(entry, 4, run->started);
    sqlite3_bind_int64(entry, 5, millis);
    sqlite3_bind_blob(entry, 6, out->bytes, out->length, SQLITE_STATIC);
    sqlite3_bind_blob(entry, 7, err->bytes, err->length, SQLITE_STATIC);
    sqlite3_bind_int64(pairs, 2, run->number);
    step(begin);
    step(entry);
    step(pairs);
    step(commit);
}

static void close_results(void)
{
    tell("UPDATE runs SET finished = 1 WHERE id = (SELECT max(id) FROM runs)");
    sqlite3_finalize(begin);
    sqlite3_finalize(entry);
    sqlite3_finalize(pairs);
    sqlite3_finalize(commit);
    need(sqlite3_close(results) == SQLITE_OK, "sqlite3");
}
#else
#define open_results(file, cases) ((void)0)
#define keep(run, program, millis, out, err) ((void)0)
#define close_results() ((void)0)
#endif

/* Makes the places of a case, and starts a program there with these words. */
static void start(struct run *run, long number, char **words)
{
    posix_spawn_file_actions_t files;
    run->number = number;
    run->started = now();
    for (int place = 0; place < PLACES; place++)
        snprintf(run->paths[place], sizeof run->paths[place], "floor.%ld%s", number, names[place]);
    need(mkdir(run->paths[ALL], 0700) == 0 && mkdir(run->paths[WORK], 0700) == 0, run->paths[WORK]);
    posix_spawn_file_actions_init(&files);
    posix_spawn_file_actions_addopen(&files, 0, "/dev/null", O_RDONLY, 0);
    posix_spawn_file_actions_addopen(&files, 1, run->paths[OUT], O_WRONLY | O_CREAT | O_EXCL, 0600);
    posix_spawn_file_actions_addopen(&files, 2, run->paths[ERR], O_WRONLY | O_CREAT | O_EXCL, 0600);
    posix_spawn_file_actions_addchdir_np(&files, run->paths[WORK]);
    need((errno = posix_spawn(&run->child, words[0], &files, NULL, words, environ)) == 0, words[0]);
    posix_spawn_file_actions_destroy(&files);
}

static void read_whole(const char *path, struct text *text)
{
    int file = open(path, O_RDONLY | O_CLOEXEC);
    ssize_t got;
    need(file >= 0, path);
    text->length = 0;
    do {
        if (text->length == text->size) {
            text->size = text->size ? 2 * text->size : 8192;
            text->bytes = realloc(text->bytes, text->size);
            need(text->bytes != NULL, path);
        }
        got = read(file, text->bytes + text->length, text->size - text->length);
        need(got >= 0, path);
        text->length += got;
    } while (got > 0);
    close(file);
}

/* Reads what a program left, and removes it. */
static void take(const struct run *run, int has_result, struct text *out, struct text *err, struct text *result)
{
    read_whole(run->paths[OUT], out);
    read_whole(run->paths[ERR], err);
    if (has_result) {
        read_whole(run->paths[RESULT], result);
        need(unlink(run->paths[RESULT]) == 0, run->paths[RESULT]);
    }
    need(unlink(run->paths[OUT]) == 0 && unlink(run->paths[ERR]) == 0, run->paths[OUT]);
    need(rmdir(run->paths[WORK]) == 0 && rmdir(run->paths[ALL]) == 0, run->paths[ALL]);
}

/* Waits for a child, which must return 0. */
static pid_t await(pid_t child)
{
    int status;
    child = waitpid(child, &status, 0);
    need(child >= 0 && status == 0, "a program");
    return child;
}

int main(int count, char **words)
{
    if (count != 6)
        return 2;
    char *program = words[1], *to_list[] = {program, "-l", NULL}, *to_run[] = {program, "-r../result", "-s..", "one", NULL};
    long lists = atol(words[2]), cases = atol(words[3]), width = atol(words[4]), next = 0, running = 0;
    struct run *runs = calloc(width + 1, sizeof *runs);
    struct text out = {0}, err = {0}, result = {0};
    need(runs != NULL, program);
    if (lists == 0)
        to_run[1] = NULL;
    open_results(words[5], cases);
    for (long list = 0; list < lists; list++) {
        start(runs, list, to_list);
        await(runs->child);
        take(runs, 0, &out, &err, &result);
    }
    while (next < cases || running > 0) {
        if (next < cases && running < width) {
            start(&runs[running++], next++, to_run);
            continue;
        }
        struct run *run = runs;
        for (pid_t child = await(-1); run->child != child;)
            run++;
        long millis = now() - run->started;
        take(run, lists > 0, &out, &err, &result);
        keep(run, program, millis, &out, &err);
        printf("%s:main  ->  passed  [%ld.%03lds]\n", program, millis / 1000, millis % 1000);
        fflush(stdout);
        *run = runs[--running];
    }
    close_results();
    return 0;
}
