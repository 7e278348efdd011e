/* Times the making of an index in use: making STORE VALUES ROWS, for bench/making.py.
 *
 * STORE is sandpipercot or sqlite, a table in memory; VALUES is ascending or random, how the column's values stand in the order of keys.
 * The rows are loaded and committed, then the index of the first column is made, which alone is timed. Its rows have to come in
 * ascending order. Printed are the processor's seconds. */
#include <sandpipercot.h>
#include <sqlite3.h>

#include <stdbool.h>
#include <stdio.h>
#include <stdlib.h>
#include <string.h>
#include <time.h>

#define TOGETHER 1000
#define DID(is)                                                                                                                            \
    do {                                                                                                                                   \
        if (!(is)) {                                                                                                                       \
            fprintf(stderr, "%s:%d: refused: %s\n", __FILE__, __LINE__, #is);                                                              \
            exit(1);                                                                                                                       \
        }                                                                                                                                  \
    } while (0)

static const char body[16] = "0123456789abcde";

static double seconds_used(void) {
    struct timespec t;
    clock_gettime(CLOCK_PROCESS_CPUTIME_ID, &t);
    return (double)t.tv_sec + (double)t.tv_nsec / 1e9;
}

/* The numbers from 0 on, ascending or in any order. */
static int64_t *numbers(uint64_t rows, bool ascending) {
    int64_t *values = malloc(rows * sizeof *values);
    uint64_t seed = 88172645463325252u;
    DID(values);
    for (uint64_t at = 0; at < rows; at++) {
        seed ^= seed >> 12, seed ^= seed << 25, seed ^= seed >> 27;
        uint64_t other = ascending ? at : ((seed * 2685821657736338717u) >> 20) % (at + 1);
        values[at] = values[other];
        values[other] = (int64_t)at;
    }
    return values;
}

static struct sandpiper table;

static void load_sandpipercot(const int64_t *values, uint64_t rows) {
    struct sandpiper_row row = {.length = sizeof body};
    memcpy(row.body, body, sizeof body);
    DID(sandpiper_open(&(struct sandpiper_settings)SANDPIPER_WIDEST, &table) == SANDPIPER_DONE);
    for (uint64_t key = 0; key < rows; key++) {
        if (key % TOGETHER == 0) DID(sandpiper_begin(&table, 0) == SANDPIPER_DONE);
        row.key = key;
        row.cols[0] = values[key];
        DID(sandpiper_insert(&table, 0, &row) == SANDPIPER_DONE);
        if (key % TOGETHER == TOGETHER - 1 || key + 1 == rows) DID(sandpiper_commit(&table, 0) == SANDPIPER_COMMITTED);
    }
}

static double make_sandpipercot(const int64_t *values, uint64_t rows) {
    static struct sandpiper_row found[TOGETHER];
    uint64_t seen = 0;
    size_t count;
    load_sandpipercot(values, rows);
    double from = seconds_used();
    DID(sandpiper_create_index(&table, 0) == SANDPIPER_DONE);
    double seconds = seconds_used() - from;
    DID(sandpiper_begin(&table, 0) == SANDPIPER_DONE);
    DID(sandpiper_open_index(&table, 0, 1, INT64_MIN, INT64_MAX) == SANDPIPER_DONE);
    while (sandpiper_next(&table, 0, found, TOGETHER, &count) == SANDPIPER_ROWS)
        for (size_t at = 0; at < count; at++) DID(found[at].cols[0] == (int64_t)seen++);
    DID(seen == rows && sandpiper_close(&table) == SANDPIPER_DONE);
    return seconds;
}

static void load_sqlite(sqlite3 *base, const int64_t *values, uint64_t rows) {
    sqlite3_stmt *insert;
    DID(sqlite3_exec(base, "create table rows (key integer primary key, a int, b int, c int, d int, body blob)", 0, 0, 0) == SQLITE_OK);
    DID(sqlite3_prepare_v2(base, "insert into rows values (?1, ?2, 0, 0, 0, ?3)", -1, &insert, 0) == SQLITE_OK);
    DID(sqlite3_exec(base, "begin", 0, 0, 0) == SQLITE_OK);
    for (uint64_t key = 0; key < rows; key++) {
        sqlite3_bind_int64(insert, 1, (sqlite3_int64)key);
        sqlite3_bind_int64(insert, 2, values[key]);
        sqlite3_bind_blob(insert, 3, body, sizeof body, SQLITE_STATIC);
        DID(sqlite3_step(insert) == SQLITE_DONE);
        sqlite3_reset(insert);
    }
    sqlite3_finalize(insert);
    DID(sqlite3_exec(base, "commit", 0, 0, 0) == SQLITE_OK);
}

static double make_sqlite(const int64_t *values, uint64_t rows) {
    sqlite3 *base;
    sqlite3_stmt *scan;
    uint64_t seen = 0;
    DID(sqlite3_open(":memory:", &base) == SQLITE_OK);
    load_sqlite(base, values, rows);
    double from = seconds_used();
    DID(sqlite3_exec(base, "create index by_a on rows (a)", 0, 0, 0) == SQLITE_OK);
    double seconds = seconds_used() - from;
    DID(sqlite3_prepare_v2(base, "select a from rows indexed by by_a order by a", -1, &scan, 0) == SQLITE_OK);
    while (sqlite3_step(scan) == SQLITE_ROW) DID(sqlite3_column_int64(scan, 0) == (sqlite3_int64)seen++);
    sqlite3_finalize(scan);
    DID(seen == rows && sqlite3_close(base) == SQLITE_OK);
    return seconds;
}

int main(int argc, char **argv) {
    DID(argc == 4);
    uint64_t rows = strtoull(argv[3], NULL, 10);
    int64_t *values = numbers(rows, !strcmp(argv[2], "ascending"));
    printf("%.6f\n", strcmp(argv[1], "sqlite") ? make_sandpipercot(values, rows) : make_sqlite(values, rows));
    free(values);
    return 0;
}
