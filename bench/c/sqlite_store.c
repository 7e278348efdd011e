/* The rows in a table of SQLite in memory, by statements that are prepared once. */
#include "store.h"

#include <sqlite3.h>
#include <string.h>

enum { BEGIN, COMMIT, INSERT, UPDATE, REMOVE, GET, SCAN, STATEMENTS };

static const char *const texts[STATEMENTS] = {
    "begin",
    "commit",
    "insert into rows values (?1, ?2, ?3, ?4, ?5, ?6)",
    "update rows set a = ?2, b = ?3, c = ?4, d = ?5, body = ?6 where key = ?1",
    "delete from rows where key = ?1",
    "select key, a, b, c, d, body from rows where key = ?1",
    "select key, a, b, c, d, body from rows",
};

static sqlite3 *base;
static sqlite3_stmt *statements[STATEMENTS];

static void open_store(void) {
    DID(sqlite3_open(":memory:", &base) == SQLITE_OK);
    DID(sqlite3_exec(base, "create table rows (key integer primary key, a int, b int, c int, d int, body blob)", 0, 0, 0) == SQLITE_OK);
    for (int i = 0; i < STATEMENTS; i++)
        DID(sqlite3_prepare_v3(base, texts[i], -1, SQLITE_PREPARE_PERSISTENT, &statements[i], 0) == SQLITE_OK);
}

static void close_store(void) {
    for (int i = 0; i < STATEMENTS; i++) sqlite3_finalize(statements[i]);
    DID(sqlite3_close(base) == SQLITE_OK);
}

/* Runs a statement that gives no row. */
static void run(int which) {
    DID(sqlite3_step(statements[which]) == SQLITE_DONE);
    sqlite3_reset(statements[which]);
}

static void begin_store(bool writes) {
    (void)writes;
    run(BEGIN);
}

static void commit_store(void) { run(COMMIT); }

static void write_row(int which, const struct row *row) {
    sqlite3_stmt *statement = statements[which];
    sqlite3_bind_int64(statement, 1, (sqlite3_int64)row->key);
    for (int i = 0; i < 4; i++) sqlite3_bind_int64(statement, 2 + i, row->cols[i]);
    sqlite3_bind_blob(statement, 6, row->body, BODY_BYTES, SQLITE_STATIC);
    run(which);
    DID(sqlite3_changes(base) == 1);
}

static void insert_row(const struct row *row) { write_row(INSERT, row); }

static void update_row(const struct row *row) { write_row(UPDATE, row); }

static void remove_row(uint64_t key) {
    sqlite3_bind_int64(statements[REMOVE], 1, (sqlite3_int64)key);
    run(REMOVE);
    DID(sqlite3_changes(base) == 1);
}

static void read_row(sqlite3_stmt *statement, struct row *row) {
    row->key = (uint64_t)sqlite3_column_int64(statement, 0);
    for (int i = 0; i < 4; i++) row->cols[i] = sqlite3_column_int64(statement, 1 + i);
    DID(sqlite3_column_bytes(statement, 5) == BODY_BYTES);
    memcpy(row->body, sqlite3_column_blob(statement, 5), BODY_BYTES);
}

static void get_row(uint64_t key, struct row *row) {
    sqlite3_bind_int64(statements[GET], 1, (sqlite3_int64)key);
    DID(sqlite3_step(statements[GET]) == SQLITE_ROW);
    read_row(statements[GET], row);
    sqlite3_reset(statements[GET]);
}

static uint64_t scan_rows(int64_t *sum) {
    uint64_t rows = 0;
    struct row row;
    *sum = 0;
    for (; sqlite3_step(statements[SCAN]) == SQLITE_ROW; rows++) {
        read_row(statements[SCAN], &row);
        *sum += row.cols[0];
    }
    sqlite3_reset(statements[SCAN]);
    return rows;
}

const struct store sqlite_store = {"sqlite",   open_store, close_store, begin_store, commit_store,
                                   insert_row, update_row, remove_row,  get_row,     scan_rows};
