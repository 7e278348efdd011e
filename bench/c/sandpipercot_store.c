/* The rows in a table of Sandpipercot, with its index by key alone. A scan is by the heap, page by page. */
#include "store.h"

#include <sandpipercot.h>
#include <string.h>

static struct sandpiper table;
static struct sandpiper_row place;

static void open_store(void) {
    const struct sandpiper_settings settings = SANDPIPER_WIDEST;
    DID(sandpiper_open(&settings, &table) == SANDPIPER_DONE);
}

static void close_store(void) { DID(sandpiper_close(&table) == SANDPIPER_DONE); }

static void begin_store(bool writes) {
    (void)writes;
    DID(sandpiper_begin(&table, 0) == SANDPIPER_DONE);
}

static void commit_store(void) { DID(sandpiper_commit(&table, 0) == SANDPIPER_COMMITTED); }

static const struct sandpiper_row *placed(const struct row *row) {
    place.key = row->key;
    memcpy(place.cols, row->cols, sizeof row->cols);
    place.length = BODY_BYTES;
    memcpy(place.body, row->body, BODY_BYTES);
    return &place;
}

static void insert_row(const struct row *row) { DID(sandpiper_insert(&table, 0, placed(row)) == SANDPIPER_DONE); }

static void update_row(const struct row *row) { DID(sandpiper_update(&table, 0, placed(row)) == SANDPIPER_DONE); }

static void remove_row(uint64_t key) { DID(sandpiper_delete(&table, 0, key) == SANDPIPER_DONE); }

static void get_row(uint64_t key, struct row *row) {
    DID(sandpiper_get(&table, 0, key, &place) == SANDPIPER_FOUND);
    row->key = place.key;
    memcpy(row->cols, place.cols, sizeof row->cols);
    memcpy(row->body, place.body, BODY_BYTES);
}

static uint64_t scan_rows(int64_t *sum) {
    static struct sandpiper_row rows[128];
    size_t count;
    uint64_t all = 0;
    *sum = 0;
    DID(sandpiper_open_heap(&table, 0) == SANDPIPER_DONE);
    for (; sandpiper_next(&table, 0, rows, 128, &count) == SANDPIPER_ROWS; all += count)
        for (size_t i = 0; i < count; i++) *sum += rows[i].cols[0];
    DID(sandpiper_close_cursor(&table, 0) == SANDPIPER_DONE);
    return all;
}

const struct store sandpipercot_store = {"sandpipercot", open_store, close_store, begin_store, commit_store,
                                         insert_row,     update_row, remove_row,  get_row,     scan_rows};
