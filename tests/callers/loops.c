/* Rows that a cursor has handed out are the caller's: whatever is called between two batches, and within one, no row is lost. */
#include "checks.h"

#define ROWS 300
#define BATCH 10

static struct sandpiper t;
static struct sandpiper_row *row, *place, *batch;

/* A table with an index by column 0, in which the keys 0 to ROWS - 1 are committed, with the key in column 0. Its rows take several
 * pages. Session 0 is open. */
static void open_table(void) {
    const struct sandpiper_settings settings = {64, 2144483648u, 0, 3, 4096, {true, false, false, false}};
    CHECK(sandpiper_open(&settings, &t) == SANDPIPER_DONE && sandpiper_begin(&t, 0) == SANDPIPER_DONE);
    for (uint64_t key = 0; key < ROWS; key++)
        CHECK(sandpiper_insert(&t, 0, set_row(row, key, (int64_t)key, "first")) == SANDPIPER_DONE);
    CHECK(sandpiper_commit(&t, 0) == SANDPIPER_COMMITTED && sandpiper_begin(&t, 0) == SANDPIPER_DONE);
}

static void close_table(void) { CHECK(sandpiper_close(&t) == SANDPIPER_DONE); }

static void open_by(int how) {
    uint32_t status = how == 0   ? sandpiper_open_heap(&t, 0)
                      : how == 1 ? sandpiper_open_by_key(&t, 0, 0, UINT64_MAX)
                                 : sandpiper_open_index(&t, 0, 1, INT64_MIN, INT64_MAX);
    CHECK(status == SANDPIPER_DONE);
}

/* How many rows are handed out, each once, where this is called between them. */
static int rows_with(size_t capacity, void (*call)(uint64_t key)) {
    static bool met[ROWS];
    int rows = 0;
    size_t count;
    uint32_t status;
    memset(met, 0, sizeof met);
    while ((status = sandpiper_next(&t, 0, batch, capacity, &count)) == SANDPIPER_ROWS) {
        CHECK(count >= 1 && count <= capacity);
        for (size_t i = 0; i < count; i++, rows++) {
            call(batch[i].key);
            CHECK(batch[i].key < ROWS && !met[batch[i].key] && has_body(batch + i, "first"));
            met[batch[i].key] = true;
        }
    }
    CHECK(status == SANDPIPER_END && count == 0 && sandpiper_close_cursor(&t, 0) == SANDPIPER_DONE);
    return rows;
}

static void nothing(uint64_t key) { (void)key; }

static void get_another(uint64_t key) { CHECK(sandpiper_get(&t, 0, ROWS - 1 - key, place) == SANDPIPER_FOUND); }

/* Another session updates the row, in a transaction of its own, and the page is pruned. */
static void update_it(uint64_t key) {
    CHECK(sandpiper_begin(&t, 1) == SANDPIPER_DONE);
    CHECK(sandpiper_update(&t, 1, set_row(row, key, -(int64_t)key, "second")) == SANDPIPER_DONE);
    CHECK(sandpiper_commit(&t, 1) == SANDPIPER_COMMITTED && sandpiper_prune(&t, 0) == SANDPIPER_DONE);
}

static void no_row_is_lost(void) {
    void (*const between[])(uint64_t) = {nothing, get_another, update_it};
    const size_t capacities[] = {1, BATCH, ROWS};
    for (int how = 0; how < 3; how++)
        for (int call = 0; call < 3; call++)
            for (int i = 0; i < 3; i++) {
                open_table();
                open_by(how);
                CHECK(rows_with(capacities[i], between[call]) == ROWS);
                close_table();
            }
}

/* A page's rows come one by one where there is one place, in the order of their slots. */
static void one_place_is_enough(void) {
    size_t count;
    open_table();
    open_by(0);
    for (uint64_t key = 0; key < ROWS; key++)
        CHECK(sandpiper_next(&t, 0, batch, 1, &count) == SANDPIPER_ROWS && count == 1 && batch->key == key);
    CHECK(sandpiper_next(&t, 0, batch, 1, &count) == SANDPIPER_END && count == 0);
    close_table();
}

/* What is behind the rows, and behind the length of each body, stays as it was; and so does all where nothing is handed out. */
static void what_is_behind_stays(void) {
    size_t count = 77;
    open_table();
    memset(batch, 0xaa, ROWS * sizeof *batch);
    CHECK(sandpiper_next(&t, 0, batch, BATCH, &count) == SANDPIPER_NO_CURSOR && count == 0 && batch->length == 0xaaaa);
    CHECK(sandpiper_open_by_key(&t, 0, 5, 7) == SANDPIPER_DONE);
    count = 77;
    CHECK(sandpiper_next(&t, 0, batch, 0, &count) == SANDPIPER_NO_PLACE && count == 0 && batch->length == 0xaaaa);
    CHECK(sandpiper_next(&t, 0, batch, BATCH, &count) == SANDPIPER_ROWS && count == 3);
    for (size_t i = 0; i < count; i++) {
        CHECK(batch[i].key == 5 + i && has_body(batch + i, "first"));
        for (int at = 5; at < SANDPIPER_BODY; at++) CHECK(batch[i].body[at] == 0xaa);
    }
    for (const uint8_t *at = (const uint8_t *)(batch + count); at < (const uint8_t *)(batch + ROWS); at++) CHECK(*at == 0xaa);
    batch->key = 77;
    CHECK(sandpiper_next(&t, 0, batch, BATCH, &count) == SANDPIPER_END && count == 0 && batch->key == 77);
    close_table();
}

/* Of a place for a key all else stays as it was. They are those of the rows between the bounds, and come in ascending order. */
static void keys_come_alone(void) {
    uint64_t next = 5;
    size_t count;
    uint32_t status;
    open_table();
    CHECK(sandpiper_open_keys(&t, 0, next, 99) == SANDPIPER_DONE);
    update_it(60), memset(batch, 0xaa, ROWS * sizeof *batch);
    while ((status = sandpiper_next(&t, 0, batch, BATCH, &count)) == SANDPIPER_ROWS)
        for (size_t i = 0; i < count; i++, next++) {
            CHECK(batch[i].key == next && batch[i].length == 0xaaaa && batch[i].body[0] == 0xaa);
            for (int column = 0; column < 4; column++) CHECK((uint64_t)batch[i].cols[column] == 0xaaaaaaaaaaaaaaaau);
        }
    CHECK(status == SANDPIPER_END && count == 0 && next == 100);
    close_table();
}

int main(void) {
    row = new_place();
    place = new_place();
    batch = malloc(ROWS * sizeof *batch);
    CHECK(batch);
    no_row_is_lost();
    one_place_is_enough();
    what_is_behind_stays();
    keys_come_alone();
    free(row);
    free(place);
    free(batch);
    puts("all right");
    return 0;
}
