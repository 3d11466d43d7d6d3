/* lmdb_commit FOLDER: opens the environment in the folder, makes it if it is not there, puts one more number, and commits. */
#include <errno.h>
#include <lmdb.h>
#include <stdio.h>
#include <stdlib.h>
#include <sys/stat.h>

static void need(int code) {
    if (code) {
        fprintf(stderr, "%s\n", mdb_strerror(code));
        exit(1);
    }
}

int main(int count, char **words) {
    MDB_env *environment;
    MDB_txn *change;
    MDB_dbi table;
    MDB_stat found;
    if (count != 2 || (mkdir(words[1], 0777) && errno != EEXIST))
        return 2;
    need(mdb_env_create(&environment));
    need(mdb_env_set_mapsize(environment, 16384 * 512));
    need(mdb_env_open(environment, words[1], 0, 0666));
    need(mdb_txn_begin(environment, NULL, 0, &change));
    need(mdb_dbi_open(change, NULL, MDB_INTEGERKEY, &table));
    need(mdb_stat(change, table, &found));
    size_t number = found.ms_entries;
    MDB_val key = {sizeof number, &number}, value = {sizeof number, &number};
    need(mdb_put(change, table, &key, &value, 0));
    need(mdb_txn_commit(change));
    mdb_env_close(environment);
    return 0;
}
