/* What a user would pick instead of messages: SQLite's session extension.
 *
 *     changesets send ROWS FILE       rows are inserted under a session; prints the milliseconds of making their changeset and writing it with a sync
 *     changesets take ROWS DATABASE   applies so many changesets of one row to a file with a write-ahead log and full syncs; prints the milliseconds
 */
#define SQLITE_ENABLE_SESSION 1
#define SQLITE_ENABLE_PREUPDATE_HOOK 1
#include <fcntl.h>
#include <sqlite3.h>
#include <stdio.h>
#include <stdlib.h>
#include <string.h>
#include <time.h>
#include <unistd.h>

static void check(int holds, const char *what) {
    if (holds) return;
    fprintf(stderr, "changesets: %s\n", what);
    exit(1);
}

static double now(void) {
    struct timespec time;
    clock_gettime(CLOCK_MONOTONIC, &time);
    return time.tv_sec * 1e3 + time.tv_nsec / 1e6;
}

static void execute(sqlite3 *database, const char *text) { check(sqlite3_exec(database, text, NULL, NULL, NULL) == SQLITE_OK, text); }

static sqlite3 *opened(const char *path) {
    sqlite3 *database;
    check(sqlite3_open(path, &database) == SQLITE_OK, path);
    return database;
}

typedef struct { int length; void *bytes; } Changeset;

static sqlite3_session *begun_on(sqlite3 *database) {
    sqlite3_session *session;
    check(sqlite3session_create(database, "main", &session) == SQLITE_OK, "no session");
    check(sqlite3session_attach(session, "t") == SQLITE_OK, "no table");
    return session;
}

static Changeset made_by(sqlite3_session *session) {
    Changeset made;
    check(sqlite3session_changeset(session, &made.length, &made.bytes) == SQLITE_OK, "no changeset");
    return made;
}

static void send_all(int rows, const char *path) {
    sqlite3 *database = opened(":memory:");
    char text[256];
    execute(database, "CREATE TABLE t (id INTEGER PRIMARY KEY, n INTEGER)");
    sqlite3_session *session = begun_on(database);
    snprintf(text, sizeof text, "WITH RECURSIVE k(i) AS (SELECT 0 UNION ALL SELECT i + 1 FROM k WHERE i + 1 < %d) INSERT INTO t SELECT i, i * 7 FROM k", rows);
    execute(database, text);
    double begun = now();
    Changeset made = made_by(session);
    int file = open(path, O_WRONLY | O_CREAT | O_TRUNC, 0666);
    check(file >= 0 && write(file, made.bytes, made.length) == made.length && fsync(file) == 0, "the file cannot be written");
    printf("%f\n", now() - begun);
}

static int stop(void *context, int conflict, sqlite3_changeset_iter *at) {
    (void)context, (void)conflict, (void)at;
    return SQLITE_CHANGESET_ABORT;
}

static void take_all(int rows, const char *path) {
    sqlite3 *above = opened(":memory:"), *below = opened(path);
    Changeset *all = calloc(rows, sizeof *all);
    execute(above, "CREATE TABLE t (id INTEGER PRIMARY KEY, n INTEGER)");
    execute(below, "PRAGMA journal_mode = WAL; PRAGMA synchronous = FULL; CREATE TABLE t (id INTEGER PRIMARY KEY, n INTEGER)");
    for (int row = 0; row < rows; row++) {
        char text[128];
        sqlite3_session *session = begun_on(above);
        snprintf(text, sizeof text, "INSERT INTO t VALUES (%d, %d)", row, row * 7);
        execute(above, text);
        all[row] = made_by(session);
        sqlite3session_delete(session);
    }
    double begun = now();
    for (int row = 0; row < rows; row++) check(sqlite3changeset_apply(below, all[row].length, all[row].bytes, NULL, stop, NULL) == SQLITE_OK, "not applied");
    printf("%f\n", now() - begun);
}

int main(int length, char **words) {
    check(length == 4, "other words");
    int rows = atoi(words[2]);
    if (strcmp(words[1], "send") == 0) send_all(rows, words[3]);
    else take_all(rows, words[3]);
    return 0;
}
