/* usage: lmdb FILE <WORK
   Does with LMDB what the lines of WORK say, as `sqlite.c` has them. It ends with status 1 where a record is missing, or is
   there already. */
#include <lmdb.h>
#include <stdio.h>
#include <stdlib.h>
#include <string.h>

enum { RECORD = 80, KEY = 8 };

static void must(int answer) {
    if (answer != 0) {
        fprintf(stderr, "lmdb: %s\n", mdb_strerror(answer));
        exit(1);
    }
}

int main(int count, char **words) {
    char line[64], record[RECORD];
    MDB_env *base;
    MDB_dbi first = 0;
    MDB_txn *change = NULL, *reading = NULL;
    if (count != 2) return 2;
    must(mdb_env_create(&base));
    must(mdb_env_set_mapsize(base, (size_t)1 << 32));
    must(mdb_env_open(base, words[1], MDB_NOSUBDIR, 0600));
    must(mdb_txn_begin(base, NULL, 0, &change));
    must(mdb_dbi_open(change, NULL, 0, &first));
    must(mdb_txn_commit(change));
    change = NULL;
    must(mdb_txn_begin(base, NULL, MDB_RDONLY, &reading));
    mdb_txn_reset(reading);
    while (fgets(line, sizeof line, stdin) != NULL) {
        memset(record, line[0] == 'P' ? 'x' : 'y', RECORD);
        if (line[0] != 'C') memcpy(record, line + 2, KEY);
        MDB_val key = {KEY, record}, data = {RECORD, record}, found;
        if (line[0] == 'C' && change != NULL) {
            must(mdb_txn_commit(change));
            change = NULL;
        }
        if (line[0] == 'G' && change == NULL) {
            must(mdb_txn_renew(reading));
            must(mdb_get(reading, first, &key, &found));
            mdb_txn_reset(reading);
        }
        if (line[0] != 'C' && line[0] != 'G' && change == NULL) must(mdb_txn_begin(base, NULL, 0, &change));
        if (line[0] == 'U' || line[0] == 'E') must(mdb_get(change, first, &key, &found));
        if (line[0] == 'P') must(mdb_put(change, first, &key, &data, MDB_NOOVERWRITE));
        if (line[0] == 'U') must(mdb_put(change, first, &key, &data, 0));
        if (line[0] == 'E') must(mdb_del(change, first, &key, NULL));
    }
    if (change != NULL) must(mdb_txn_commit(change));
    return 0;
}
