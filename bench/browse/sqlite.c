/* The same records in a table of SQLite: added in units of 100 with full syncs, and, after the table was opened anew, read in the
   order of their keys by one cursor. Prints for both how many nanoseconds of processor time they took. The program's one word is
   how many records there are. */
#include <sqlite3.h>
#include <stdio.h>
#include <stdlib.h>
#include <string.h>
#include <time.h>

enum { RECORD = 80, KEY = 8, IN_UNIT = 100 };

static sqlite3 *base;

static void fail(void) {
    fprintf(stderr, "sqlite: %s\n", sqlite3_errmsg(base));
    exit(1);
}

static void open_base(void) {
    if (sqlite3_open("sqlite.db", &base) != SQLITE_OK) fail();
}

static void do_text(const char *text) {
    if (sqlite3_exec(base, text, NULL, NULL, NULL) != SQLITE_OK) fail();
}

static sqlite3_stmt *prepared(const char *text) {
    sqlite3_stmt *statement;
    if (sqlite3_prepare_v2(base, text, -1, &statement, NULL) != SQLITE_OK) fail();
    return statement;
}

static void report(const char *work, clock_t start) {
    printf("SQLite * %s %lld\n", work, (long long)(clock() - start) * (1000000000LL / CLOCKS_PER_SEC));
}

static void add(int records) {
    sqlite3_stmt *insert = prepared("INSERT INTO records VALUES (?1, ?2)");
    char record[RECORD], key[12];
    memset(record, 'a', RECORD);
    do_text("BEGIN");
    for (int turn = 0; turn < records; turn++) {
        snprintf(key, sizeof key, "%08d", turn);
        memcpy(record, key, KEY);
        sqlite3_bind_blob(insert, 1, record, KEY, SQLITE_STATIC);
        sqlite3_bind_blob(insert, 2, record, RECORD, SQLITE_STATIC);
        if (sqlite3_step(insert) != SQLITE_DONE) fail();
        sqlite3_reset(insert);
        if (turn % IN_UNIT == IN_UNIT - 1) do_text("COMMIT; BEGIN");
    }
    do_text("COMMIT");
    sqlite3_finalize(insert);
}

static void read_all(int records) {
    sqlite3_stmt *cursor = prepared("SELECT record FROM records ORDER BY key");
    char record[RECORD + 1];
    int turn = 0;
    for (; sqlite3_step(cursor) == SQLITE_ROW; turn++) {
        if (sqlite3_column_bytes(cursor, 0) != RECORD) fail();
        memcpy(record, sqlite3_column_blob(cursor, 0), RECORD);
        record[KEY] = 0;
        if (atoi(record) != turn) fail();
    }
    if (turn != records) fail();
    sqlite3_finalize(cursor);
}

int main(int count, char **words) {
    int records = count > 1 ? atoi(words[1]) : 0;
    open_base();
    do_text("PRAGMA page_size=4096; PRAGMA journal_mode=DELETE; PRAGMA synchronous=FULL;"
            "CREATE TABLE records (key BLOB PRIMARY KEY, record BLOB) WITHOUT ROWID");
    clock_t start = clock();
    add(records);
    report("add", start);
    sqlite3_close(base);
    open_base();
    start = clock();
    read_all(records);
    report("read", start);
    return 0;
}
