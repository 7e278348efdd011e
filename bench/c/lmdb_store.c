/* The rows in LMDB: keys are integers, and the columns and the body are the value. No sync, and a writable map, in a folder that
 * BENCH_FOLDER names, or else in /dev/shm. A read transaction is reset and renewed. */
#include "store.h"

#include <lmdb.h>
#include <string.h>
#include <unistd.h>

#define MAP_BYTES (8ull << 30)

static MDB_env *env;
static MDB_dbi rows_of;
static MDB_txn *reader, *now;
static char folder[4096];

static void open_store(void) {
    const char *base = getenv("BENCH_FOLDER");
    snprintf(folder, sizeof folder, "%s/bench_lmdb_XXXXXX", base ? base : "/dev/shm");
    DID(mkdtemp(folder));
    DID(mdb_env_create(&env) == 0 && mdb_env_set_mapsize(env, MAP_BYTES) == 0);
    DID(mdb_env_open(env, folder, MDB_NOSYNC | MDB_WRITEMAP, 0600) == 0);
    DID(mdb_txn_begin(env, NULL, 0, &now) == 0 && mdb_dbi_open(now, NULL, MDB_INTEGERKEY | MDB_CREATE, &rows_of) == 0);
    DID(mdb_txn_commit(now) == 0);
    DID(mdb_txn_begin(env, NULL, MDB_RDONLY, &reader) == 0);
    mdb_txn_reset(reader);
}

static void close_store(void) {
    char path[4200];
    mdb_txn_abort(reader);
    mdb_env_close(env);
    for (int i = 0; i < 2; i++) {
        snprintf(path, sizeof path, "%s/%s.mdb", folder, i ? "lock" : "data");
        unlink(path);
    }
    rmdir(folder);
}

static void begin_store(bool writes) {
    now = reader;
    DID((writes ? mdb_txn_begin(env, NULL, 0, &now) : mdb_txn_renew(reader)) == 0);
}

static void commit_store(void) {
    if (now == reader)
        mdb_txn_reset(reader);
    else
        DID(mdb_txn_commit(now) == 0);
}

static int put(const struct row *row, unsigned flags) {
    MDB_val key = {sizeof row->key, (void *)&row->key}, value = {sizeof *row - sizeof row->key, (void *)row->cols};
    return mdb_put(now, rows_of, &key, &value, flags);
}

static void insert_row(const struct row *row) { DID(put(row, MDB_NOOVERWRITE) == 0); }

static void update_row(const struct row *row) { DID(put(row, 0) == 0); }

static void remove_row(uint64_t number) {
    MDB_val key = {sizeof number, &number};
    DID(mdb_del(now, rows_of, &key, NULL) == 0);
}

static void get_row(uint64_t number, struct row *row) {
    MDB_val key = {sizeof number, &number}, value;
    DID(mdb_get(now, rows_of, &key, &value) == 0 && value.mv_size == sizeof *row - sizeof row->key);
    row->key = number;
    memcpy(row->cols, value.mv_data, value.mv_size);
}

static uint64_t scan_rows(int64_t *sum) {
    MDB_cursor *cursor;
    MDB_val key, value;
    uint64_t rows = 0;
    struct row row;
    *sum = 0;
    DID(mdb_cursor_open(now, rows_of, &cursor) == 0);
    for (; mdb_cursor_get(cursor, &key, &value, MDB_NEXT) == 0; rows++) {
        memcpy(&row.key, key.mv_data, sizeof row.key);
        memcpy(row.cols, value.mv_data, value.mv_size);
        *sum += row.cols[0];
    }
    mdb_cursor_close(cursor);
    return rows;
}

const struct store lmdb_store = {"lmdb",     open_store, close_store, begin_store, commit_store,
                                 insert_row, update_row, remove_row,  get_row,     scan_rows};
