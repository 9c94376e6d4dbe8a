/* usage: sqlite FILE wal|journal <WORK
   Does with SQLite what the lines of WORK say: `P key` adds a record of 80 bytes, `G key` reads one, `U key` reads and
   updates it, `E key` reads and deletes it, and `C` ends a transaction. Pages of 4,096 bytes, full syncs. It ends with
   status 1 where a record is missing, or is there already. */
#include <sqlite3.h>
#include <stdio.h>
#include <stdlib.h>
#include <string.h>

enum { RECORD = 80, KEY = 8 };

static sqlite3 *base;

static void fail(void) {
    fprintf(stderr, "sqlite: %s\n", sqlite3_errmsg(base));
    exit(1);
}

static void execute(const char *text) {
    if (sqlite3_exec(base, text, NULL, NULL, NULL) != SQLITE_OK) fail();
}

static sqlite3_stmt *prepared(const char *text) {
    sqlite3_stmt *statement;
    if (sqlite3_prepare_v3(base, text, -1, SQLITE_PREPARE_PERSISTENT, &statement, NULL) != SQLITE_OK) fail();
    return statement;
}

/* Runs a statement with a key and, where it has one, a record; it has to answer so many rows. */
static void run(sqlite3_stmt *statement, const char *record, int rows) {
    int found = 0, answer;
    if (sqlite3_bind_parameter_count(statement) > 0) sqlite3_bind_blob(statement, 1, record, KEY, SQLITE_STATIC);
    if (sqlite3_bind_parameter_count(statement) > 1) sqlite3_bind_blob(statement, 2, record, RECORD, SQLITE_STATIC);
    while ((answer = sqlite3_step(statement)) == SQLITE_ROW) found++;
    if (answer != SQLITE_DONE || found != rows) fail();
    sqlite3_reset(statement);
}

int main(int count, char **words) {
    char line[64], record[RECORD + 1], shape[128];
    if (count != 3 || sqlite3_open(words[1], &base) != SQLITE_OK) fail();
    snprintf(shape, sizeof shape, "PRAGMA page_size=4096; PRAGMA journal_mode=%s; PRAGMA synchronous=FULL",
             strcmp(words[2], "wal") == 0 ? "WAL" : "DELETE");
    execute(shape);
    execute("CREATE TABLE IF NOT EXISTS first (key BLOB PRIMARY KEY, record BLOB) WITHOUT ROWID");
    sqlite3_stmt *get = prepared("SELECT record FROM first WHERE key = ?1");
    sqlite3_stmt *add = prepared("INSERT INTO first VALUES (?1, ?2)");
    sqlite3_stmt *update = prepared("UPDATE first SET record = ?2 WHERE key = ?1");
    sqlite3_stmt *delete = prepared("DELETE FROM first WHERE key = ?1");
    sqlite3_stmt *begin = prepared("BEGIN"), *commit = prepared("COMMIT");
    while (fgets(line, sizeof line, stdin) != NULL) {
        memset(record, line[0] == 'P' ? 'x' : 'y', RECORD);
        if (line[0] != 'C') memcpy(record, line + 2, KEY);
        if (line[0] != 'C' && line[0] != 'G' && sqlite3_get_autocommit(base)) run(begin, record, 0);
        if (line[0] == 'G' || line[0] == 'U' || line[0] == 'E') run(get, record, 1);
        if (line[0] == 'P') run(add, record, 0);
        if (line[0] == 'U') run(update, record, 0);
        if (line[0] == 'E') run(delete, record, 0);
        if (line[0] == 'C' && !sqlite3_get_autocommit(base)) run(commit, record, 0);
    }
    if (!sqlite3_get_autocommit(base)) run(commit, record, 0);
    sqlite3_close_v2(base);
    return 0;
}
