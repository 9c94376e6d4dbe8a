/* The same adds, updates and erases with SQLite, each in a transaction of its own, with a rollback journal that is deleted
   and full syncs; prints for each phase how many nanoseconds it took. */
#include <sqlite3.h>
#include <stdio.h>
#include <stdlib.h>
#include <string.h>
#include <time.h>

enum { RECORDS = 1000, RECORD = 80, KEY = 8 };

static sqlite3 *base;

static long long nanos(void) {
    struct timespec now;
    clock_gettime(CLOCK_MONOTONIC, &now);
    return now.tv_sec * 1000000000LL + now.tv_nsec;
}

static void fail(void) {
    fprintf(stderr, "sqlite: %s\n", sqlite3_errmsg(base));
    exit(1);
}

static sqlite3_stmt *prepared(const char *text) {
    sqlite3_stmt *statement;
    if (sqlite3_prepare_v2(base, text, -1, &statement, NULL) != SQLITE_OK) fail();
    return statement;
}

/* Runs a statement with a key and, where it has one, a record; it has to answer so many rows. */
static void run(sqlite3_stmt *statement, const char *record, int rows) {
    int found = 0, answer;
    if (sqlite3_bind_parameter_count(statement) > 0) sqlite3_bind_blob(statement, 1, record, KEY, SQLITE_STATIC);
    if (sqlite3_bind_parameter_count(statement) > 1) sqlite3_bind_blob(statement, 2, record, RECORD, SQLITE_STATIC);
    while ((answer = sqlite3_step(statement)) == SQLITE_ROW) found++;
    if (answer != SQLITE_DONE || found != rows) fail();
    sqlite3_reset(statement);
}

/* Does one change of each record in a transaction of its own, after getting the record where that is asked for. */
static void phase(const char *name, sqlite3_stmt *get, sqlite3_stmt *change, char fill) {
    sqlite3_stmt *begin = prepared("BEGIN"), *commit = prepared("COMMIT");
    char record[RECORD + 1];
    long long start = nanos();
    for (int turn = 0; turn < RECORDS; turn++) {
        memset(record, fill, RECORD);
        char key[KEY + 1];
        snprintf(key, sizeof key, "%08d", turn * 1237 % 2048);
        memcpy(record, key, KEY);
        run(begin, record, 0);
        if (get != NULL) run(get, record, 1);
        run(change, record, 0);
        if (sqlite3_changes(base) != 1) fail();
        run(commit, record, 0);
    }
    printf("%s %lld\n", name, nanos() - start);
}

int main(void) {
    if (sqlite3_open("sqlite.db", &base) != SQLITE_OK) fail();
    const char *shape = "PRAGMA page_size=4096; PRAGMA journal_mode=DELETE; PRAGMA synchronous=FULL;"
                        "CREATE TABLE first (key BLOB PRIMARY KEY, record BLOB) WITHOUT ROWID";
    if (sqlite3_exec(base, shape, NULL, NULL, NULL) != SQLITE_OK) fail();
    sqlite3_stmt *get = prepared("SELECT record FROM first WHERE key = ?1");
    phase("add", NULL, prepared("INSERT INTO first VALUES (?1, ?2)"), 'a');
    phase("update", get, prepared("UPDATE first SET record = ?2 WHERE key = ?1"), 'b');
    phase("erase", get, prepared("DELETE FROM first WHERE key = ?1"), 'b');
    return 0;
}
