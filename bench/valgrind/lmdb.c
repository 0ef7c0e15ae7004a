/* Puts records into LMDB, which stores to its mapping: lmdb POOL TRANSACTIONS. 1,000 records in each of its transactions, which do not
 * wait for the medium. */
#include <lmdb.h>
#include <stdint.h>
#include <stdlib.h>
#include <string.h>

enum { RECORDS = 1000, MAP_BYTES = 1 << 28 };

static int put_records(MDB_env *store, uint64_t *number) {
    MDB_txn *transaction;
    MDB_dbi table;
    char text[40];
    if (mdb_txn_begin(store, NULL, 0, &transaction) != 0 || mdb_dbi_open(transaction, NULL, MDB_INTEGERKEY | MDB_CREATE, &table) != 0)
        return 1;
    for (int at = 0; at < RECORDS; at++, ++*number) {
        uint64_t key = *number * 0x9E3779B97F4A7C15ULL >> 44;
        MDB_val name = {sizeof key, &key}, value = {sizeof text, memset(text, at, sizeof text)};
        if (mdb_put(transaction, table, &name, &value, 0) != 0)
            return 1;
    }
    return mdb_txn_commit(transaction);
}

int main(int count, char **words) {
    MDB_env *store;
    uint64_t number = 0;
    if (count != 3 || mdb_env_create(&store) != 0 || mdb_env_set_mapsize(store, MAP_BYTES) != 0 ||
        mdb_env_open(store, words[1], MDB_WRITEMAP | MDB_NOSUBDIR | MDB_NOSYNC, 0666) != 0)
        return 1;
    for (int at = 0; at < atoi(words[2]); at++)
        if (put_records(store, &number) != 0)
            return 1;
    mdb_env_close(store);
    return 0;
}
