/* Which calls end a wait, as the header says: each that is handed the session's number, but for those that it names. Session 0 is told
 * that session 1 holds a key, and then makes one call. Where its wait goes on, session 1's write of a key of session 0 closes a ring. */
#include "checks.h"
#include "refusing.h"

static struct sandpiper t;
static struct sandpiper_row *row, rows[2];
static struct sandpiper_ticket ticket;
static size_t count;

static void none(void) {}
static void begin(void) { sandpiper_begin(&t, 0); }
static void begin_read_committed(void) { sandpiper_begin_read_committed(&t, 0); }
static void savepoint(void) { sandpiper_savepoint(&t, 0); }
static void rollback_to(void) { sandpiper_rollback_to(&t, 0); }
static void release(void) { sandpiper_release(&t, 0); }
static void get(void) { sandpiper_get(&t, 0, 1, row); }
static void insert(void) { sandpiper_insert(&t, 0, set_row(row, 0, 0, "")); }
static void update(void) { sandpiper_update(&t, 0, set_row(row, 77, 0, "")); }
static void delete_none(void) { sandpiper_delete(&t, 0, 77); }
static void insert_two(void) { sandpiper_insert_many(&t, 0, rows, 2, &count); }
static void update_two(void) { sandpiper_update_many(&t, 0, rows, 2, &count); }
static void open_heap(void) { sandpiper_open_heap(&t, 0); }
static void open_by_key(void) { sandpiper_open_by_key(&t, 0, 1, 0); }
static void open_index(void) { sandpiper_open_index(&t, 0, 9, 0, 1); }
static void open_keys(void) { sandpiper_open_keys(&t, 0, 1, 0); }
static void close_cursor(void) { sandpiper_close_cursor(&t, 0); }
static void next(void) { sandpiper_next(&t, 0, rows, 2, &count); }
static void insert_too_large(void) { row->key = 5, row->length = UINT16_MAX, sandpiper_insert(&t, 0, row); }

static void take_page(void) { CHECK(sandpiper_take_page(&t, 0, 0, &ticket) == SANDPIPER_DONE); }
static void next_of_no_places(void) { CHECK(sandpiper_next(&t, 0, rows, 0, &count) == SANDPIPER_NO_PLACE); }
static void insert_none(void) { CHECK(sandpiper_insert_many(&t, 0, rows, 0, &count) == SANDPIPER_DONE && count == 0); }
static void update_none(void) { CHECK(sandpiper_update_many(&t, 0, rows, 0, &count) == SANDPIPER_DONE && count == 0); }
static void insert_without_memory(void) {
    row->key = 5, row->length = UINT16_MAX;
    counts = true, asked = 0, refused_piece = 0;
    uint32_t status = sandpiper_insert(&t, 0, row);
    counts = false;
    CHECK(status == SANDPIPER_NO_MEMORY && asked == 1);
}

static const struct { void (*call)(void); int ends; } cases[] = {
    {begin, 1}, {begin_read_committed, 1}, {savepoint, 1}, {rollback_to, 1}, {release, 1}, {get, 1}, {insert, 1}, {update, 1},
    {delete_none, 1}, {insert_two, 1}, {update_two, 1}, {open_heap, 1}, {open_by_key, 1}, {open_index, 1}, {open_keys, 1},
    {close_cursor, 1}, {next, 1}, {insert_too_large, 1},
    {none, 0}, {take_page, 0}, {next_of_no_places, 0}, {insert_none, 0}, {update_none, 0}, {insert_without_memory, 0},
};

/* Whether session 0 waits on after the call. */
static int waits_after(void (*call)(void)) {
    CHECK(sandpiper_open(&(struct sandpiper_settings)SANDPIPER_WIDEST, &t) == SANDPIPER_DONE);
    for (uint8_t s = 0; s < 2; s++) {
        CHECK(sandpiper_begin(&t, s) == SANDPIPER_DONE);
        CHECK(sandpiper_insert(&t, s, set_row(row, s, 0, "")) == SANDPIPER_DONE);
    }
    CHECK(sandpiper_insert(&t, 0, set_row(row, 1, 0, "")) == SANDPIPER_BUSY + 1);
    call();
    uint32_t status = sandpiper_insert(&t, 1, set_row(row, 0, 0, ""));
    CHECK(status == SANDPIPER_DEADLOCK || status == SANDPIPER_BUSY);
    sandpiper_close_ticket(&ticket);
    CHECK(sandpiper_close(&t) == SANDPIPER_DONE);
    return status == SANDPIPER_DEADLOCK;
}

int main(void) {
    row = new_place();
    set_row(rows, 60, 0, ""), set_row(rows + 1, 61, 0, "");
    for (size_t i = 0; i < sizeof cases / sizeof *cases; i++) {
        if (waits_after(cases[i].call) == !cases[i].ends) continue;
        fprintf(stderr, "waits.c: case %zu is otherwise\n", i);
        return 1;
    }
    /* of no rows nothing is looked at */
    CHECK(sandpiper_insert_many(&t, 0, rows, 0, &count) == SANDPIPER_DONE && sandpiper_update_many(&t, 99, rows, 0, &count) == SANDPIPER_DONE);
    free(row);
    puts("all right");
    return 0;
}
