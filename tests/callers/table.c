/* What each call does, by worked cases. */
#include "checks.h"

_Static_assert(sizeof(struct sandpiper) == 2 * sizeof(void *), "a pointer and a flag");
_Static_assert(sizeof(struct sandpiper_row) == 1072, "8 + 32 + 2 + 1024 bytes, and 6 that fill up");
_Static_assert(sizeof(struct sandpiper_settings) == 24, "six words");
_Static_assert(sizeof(struct sandpiper_slot) == 24, "six words");
_Static_assert(sizeof(struct sandpiper_piece) == 12, "three words");

static struct sandpiper t;
static struct sandpiper_row *row, *place;

/* A table with an index by column 0, in which session 0 has committed the keys 1 to 10, with ten times the key in column 0. */
static void open_table(void) {
    const struct sandpiper_settings settings = {64, 2144483648u, 0, 3, 4096, {true, false, false, false}};
    CHECK(sandpiper_open(&settings, &t) == SANDPIPER_DONE && t.is_open);
    CHECK(sandpiper_begin(&t, 0) == SANDPIPER_DONE);
    for (uint64_t key = 1; key <= 10; key++)
        CHECK(sandpiper_insert(&t, 0, set_row(row, key, (int64_t)key * 10, "first")) == SANDPIPER_DONE);
    CHECK(sandpiper_commit(&t, 0) == SANDPIPER_COMMITTED);
}

static void close_table(void) { CHECK(sandpiper_close(&t) == SANDPIPER_DONE && !t.is_open); }

/* How many rows the session's cursor hands out, and the sum of their first columns. */
static size_t scan(uint8_t session, size_t capacity, int64_t *sum) {
    static struct sandpiper_row rows[64];
    size_t count, all = 0;
    uint32_t status;
    *sum = 0;
    for (; (status = sandpiper_next(&t, session, rows, capacity, &count)) == SANDPIPER_ROWS; all += count)
        for (size_t i = 0; i < count; i++) *sum += rows[i].cols[0];
    CHECK(status == SANDPIPER_END && count == 0 && sandpiper_close_cursor(&t, session) == SANDPIPER_DONE);
    return all;
}

static void a_row_comes_back_as_it_was_written(void) {
    open_table();
    CHECK(sandpiper_begin(&t, 5) == SANDPIPER_DONE);
    row->key = UINT64_MAX;
    row->cols[0] = INT64_MIN, row->cols[1] = INT64_MAX, row->cols[2] = -1, row->cols[3] = 0;
    row->length = SANDPIPER_BODY;
    for (int i = 0; i < SANDPIPER_BODY; i++) row->body[i] = (uint8_t)i;
    CHECK(sandpiper_insert(&t, 5, row) == SANDPIPER_DONE);
    CHECK(sandpiper_get(&t, 5, UINT64_MAX, place) == SANDPIPER_FOUND && place->key == UINT64_MAX);
    CHECK(memcmp(place->cols, row->cols, sizeof row->cols) == 0);
    CHECK(place->length == SANDPIPER_BODY && memcmp(place->body, row->body, SANDPIPER_BODY) == 0);

    /* of a shorter body the rest of the place is as it was, and of a row that is not there all of it */
    memset(place, 0xaa, sizeof *place);
    CHECK(sandpiper_get(&t, 5, 3, place) == SANDPIPER_FOUND && has_body(place, "first"));
    CHECK(place->body[5] == 0xaa && place->body[SANDPIPER_BODY - 1] == 0xaa);
    CHECK(sandpiper_get(&t, 5, 11, place) == SANDPIPER_NO_ROW && place->key == 3 && has_body(place, "first"));
    CHECK(sandpiper_insert(&t, 5, set_row(row, 11, 1, "")) == SANDPIPER_DONE);
    CHECK(sandpiper_get(&t, 5, 11, place) == SANDPIPER_FOUND && place->length == 0);
    close_table();
}

static void a_session_keeps_its_view(void) {
    open_table();
    CHECK(sandpiper_begin(&t, 1) == SANDPIPER_DONE && sandpiper_begin(&t, 2) == SANDPIPER_DONE);
    CHECK(sandpiper_update(&t, 2, set_row(row, 3, 333, "second")) == SANDPIPER_DONE);
    CHECK(sandpiper_update(&t, 1, row) == SANDPIPER_BUSY + 2);
    CHECK(sandpiper_delete(&t, 2, 4) == SANDPIPER_DONE);
    CHECK(sandpiper_commit(&t, 2) == SANDPIPER_COMMITTED);
    CHECK(sandpiper_get(&t, 1, 3, place) == SANDPIPER_FOUND && place->cols[0] == 30 && has_body(place, "first"));
    CHECK(sandpiper_get(&t, 1, 4, place) == SANDPIPER_FOUND && place->cols[0] == 40);

    CHECK(sandpiper_begin(&t, 2) == SANDPIPER_DONE);
    CHECK(sandpiper_get(&t, 2, 3, place) == SANDPIPER_FOUND && place->cols[0] == 333 && has_body(place, "second"));
    CHECK(sandpiper_get(&t, 2, 4, place) == SANDPIPER_NO_ROW);

    /* the first committer wins */
    CHECK(sandpiper_update(&t, 1, set_row(row, 3, 3333, "late")) == SANDPIPER_CONFLICT);
    CHECK(sandpiper_update(&t, 1, row) == SANDPIPER_FAILED);
    CHECK(sandpiper_commit(&t, 1) == SANDPIPER_ROLLED_BACK);
    close_table();
}

static void a_ring_of_two_waits_is_a_deadlock(void) {
    open_table();
    CHECK(sandpiper_begin(&t, 1) == SANDPIPER_DONE && sandpiper_begin(&t, 2) == SANDPIPER_DONE);
    CHECK(sandpiper_update(&t, 1, set_row(row, 3, 333, "one")) == SANDPIPER_DONE);
    CHECK(sandpiper_update(&t, 2, set_row(row, 4, 444, "two")) == SANDPIPER_DONE);

    /* the get of session 1 ends its wait, so that 2 only waits for it; then 1 would close the ring */
    CHECK(sandpiper_delete(&t, 1, 4) == SANDPIPER_BUSY + 2);
    CHECK(sandpiper_get(&t, 1, 4, place) == SANDPIPER_FOUND && place->cols[0] == 40);
    CHECK(sandpiper_delete(&t, 2, 3) == SANDPIPER_BUSY + 1);
    CHECK(sandpiper_delete(&t, 1, 4) == SANDPIPER_DEADLOCK);
    CHECK(sandpiper_get(&t, 1, 3, place) == SANDPIPER_FAILED);

    /* a failed session keeps its keys, until it has ended */
    CHECK(sandpiper_delete(&t, 2, 3) == SANDPIPER_BUSY + 1);
    CHECK(sandpiper_commit(&t, 1) == SANDPIPER_ROLLED_BACK);
    CHECK(sandpiper_delete(&t, 2, 3) == SANDPIPER_DONE && sandpiper_commit(&t, 2) == SANDPIPER_COMMITTED);
    CHECK(sandpiper_begin(&t, 1) == SANDPIPER_DONE);
    CHECK(sandpiper_get(&t, 1, 3, place) == SANDPIPER_NO_ROW);
    CHECK(sandpiper_get(&t, 1, 4, place) == SANDPIPER_FOUND && place->cols[0] == 444 && has_body(place, "two"));
    close_table();
}

static void cursors_hand_out_what_the_session_reads(void) {
    int64_t sum;
    open_table();
    CHECK(sandpiper_begin(&t, 1) == SANDPIPER_DONE && sandpiper_begin(&t, 2) == SANDPIPER_DONE);
    CHECK(sandpiper_update(&t, 2, set_row(row, 3, 333, "second")) == SANDPIPER_DONE);
    CHECK(sandpiper_delete(&t, 2, 4) == SANDPIPER_DONE);
    CHECK(sandpiper_open_heap(&t, 1) == SANDPIPER_DONE && scan(1, 64, &sum) == 10 && sum == 550);
    CHECK(sandpiper_open_heap(&t, 2) == SANDPIPER_DONE && scan(2, 1, &sum) == 9 && sum == 550 - 30 + 333 - 40);
    CHECK(sandpiper_open_by_key(&t, 2, 2, 5) == SANDPIPER_DONE && scan(2, 2, &sum) == 3 && sum == 20 + 333 + 50);
    CHECK(sandpiper_open_by_key(&t, 2, 0, UINT64_MAX) == SANDPIPER_DONE && scan(2, 64, &sum) == 9);
    CHECK(sandpiper_open_index(&t, 2, 0, 2, 5) == SANDPIPER_DONE && scan(2, 64, &sum) == 3 && sum == 20 + 333 + 50);
    CHECK(sandpiper_open_index(&t, 2, 1, -5, 60) == SANDPIPER_DONE && scan(2, 1, &sum) == 4 && sum == 10 + 20 + 50 + 60);
    CHECK(sandpiper_open_index(&t, 2, 1, INT64_MIN, INT64_MAX) == SANDPIPER_DONE && scan(2, 4, &sum) == 9);

    close_table();
}

static void savepoints_take_back(void) {
    open_table();
    CHECK(sandpiper_begin(&t, 1) == SANDPIPER_DONE);
    CHECK(sandpiper_savepoint(&t, 1) == SANDPIPER_DONE);
    CHECK(sandpiper_update(&t, 1, set_row(row, 5, 555, "kept")) == SANDPIPER_DONE);
    CHECK(sandpiper_rollback_to(&t, 1) == SANDPIPER_DONE);
    CHECK(sandpiper_get(&t, 1, 5, place) == SANDPIPER_FOUND && place->cols[0] == 50);
    CHECK(sandpiper_update(&t, 1, row) == SANDPIPER_DONE);
    CHECK(sandpiper_release(&t, 1) == SANDPIPER_DONE);
    CHECK(sandpiper_commit(&t, 1) == SANDPIPER_COMMITTED);

    CHECK(sandpiper_begin(&t, 1) == SANDPIPER_DONE);
    CHECK(sandpiper_get(&t, 1, 5, place) == SANDPIPER_FOUND && place->cols[0] == 555);
    CHECK(sandpiper_delete(&t, 1, 5) == SANDPIPER_DONE);
    CHECK(sandpiper_abort(&t, 1) == SANDPIPER_ROLLED_BACK);
    CHECK(sandpiper_begin(&t, 1) == SANDPIPER_DONE);
    CHECK(sandpiper_get(&t, 1, 5, place) == SANDPIPER_FOUND && place->cols[0] == 555);
    close_table();
}

/* A key that was updated is a chain of two slots, and one that was deleted keeps its slot while an index leads to it. */
static void pages_can_be_looked_into(void) {
    static uint8_t bytes[SANDPIPER_PAGE_BYTES + 1];
    struct sandpiper_slot slot;
    uint32_t bad_slot = 7;
    open_table();
    CHECK(sandpiper_begin(&t, 1) == SANDPIPER_DONE);
    CHECK(sandpiper_update(&t, 1, set_row(row, 3, 30, "second")) == SANDPIPER_DONE);
    CHECK(sandpiper_delete(&t, 1, 4) == SANDPIPER_DONE);
    CHECK(sandpiper_commit(&t, 1) == SANDPIPER_COMMITTED);
    CHECK(sandpiper_slot_at(&t, 0, 3, &slot) == SANDPIPER_FOUND);
    CHECK(slot.kind == SANDPIPER_NORMAL && slot.key == 3 && slot.xmin == 3 && slot.xmax == 4 && slot.target == 0);
    CHECK(sandpiper_slot_at(&t, 0, 12, &slot) == SANDPIPER_NO_ROW && slot.key == 3);

    CHECK(sandpiper_prune(&t, 0) == SANDPIPER_DONE);
    CHECK(sandpiper_slot_at(&t, 0, 1, &slot) == SANDPIPER_FOUND);
    CHECK(slot.kind == SANDPIPER_NORMAL && slot.key == 1 && slot.xmin == 3 && slot.xmax == 0);
    CHECK(sandpiper_slot_at(&t, 0, 3, &slot) == SANDPIPER_FOUND);
    CHECK(slot.kind == SANDPIPER_REDIRECT && slot.target == 11 && slot.xmin == 0 && slot.key == 0);
    CHECK(sandpiper_slot_at(&t, 0, 4, &slot) == SANDPIPER_FOUND);
    CHECK(slot.kind == SANDPIPER_DEAD && slot.target == 0 && slot.key == 0);

    bytes[SANDPIPER_PAGE_BYTES] = 77;
    CHECK(sandpiper_page_bytes(&t, 0, bytes, sizeof bytes) == SANDPIPER_FOUND && bytes[SANDPIPER_PAGE_BYTES] == 77);
    CHECK(bytes[12] == 24 + 4 * 11 && bytes[24 + 4 * 2] == 11 && bytes[24 + 4 * 2 + 2] == 1);
    CHECK(sandpiper_check_page(bytes, SANDPIPER_PAGE_BYTES, &bad_slot) == SANDPIPER_PAGE_SOUND && bad_slot == 0);
    bytes[24 + 4 * 2] = 4;
    CHECK(sandpiper_check_page(bytes, SANDPIPER_PAGE_BYTES, &bad_slot) == SANDPIPER_PAGE_REDIRECT && bad_slot == 3);
    close_table();
}

static void does(uint32_t kind, uint32_t number) {
    struct sandpiper_piece piece;
    CHECK(sandpiper_vacuum_step(&t, &piece) == SANDPIPER_WORKED);
    CHECK(piece.kind == kind && piece.number == number && piece.oldest == 0);
}

/* A session reads the same whether it is noted where keys were put, or not: rows that are there, that went, and that came again. */
static void places_change_no_answer(void) {
    open_table();
    CHECK(sandpiper_begin(&t, 1) == SANDPIPER_DONE && sandpiper_begin(&t, 2) == SANDPIPER_DONE);
    for (uint64_t key = 4; key < 8; key++) {
        CHECK(sandpiper_keep_places(&t, key % 2 == 1) == SANDPIPER_DONE);
        CHECK(sandpiper_get(&t, 1, key, place) == SANDPIPER_FOUND && place->key == key && has_body(place, "first"));
        CHECK(sandpiper_delete(&t, 1, key) == SANDPIPER_DONE && sandpiper_get(&t, 1, key, place) == SANDPIPER_NO_ROW);
        CHECK(sandpiper_insert(&t, 1, set_row(row, key, 1, "again")) == SANDPIPER_DONE);
        CHECK(sandpiper_get(&t, 1, key, place) == SANDPIPER_FOUND && has_body(place, "again"));
        CHECK(sandpiper_get(&t, 2, key, place) == SANDPIPER_FOUND && has_body(place, "first"));
    }
    close_table();
}

/* A deleted row's slot is freed step by step, and given to the next row. */
static void a_vacuum_frees_slots(void) {
    struct sandpiper_piece piece = {77, 77, 77};
    struct sandpiper_slot slot;
    open_table();
    CHECK(sandpiper_begin(&t, 1) == SANDPIPER_DONE && sandpiper_delete(&t, 1, 4) == SANDPIPER_DONE);
    CHECK(sandpiper_commit(&t, 1) == SANDPIPER_COMMITTED);
    CHECK(sandpiper_vacuum_step(&t, &piece) == SANDPIPER_NO_VACUUM && piece.kind == 77 && piece.number == 77 && piece.oldest == 77);
    CHECK(sandpiper_vacuum_cancel(&t) == SANDPIPER_NO_VACUUM);
    CHECK(sandpiper_vacuum_begin(&t, true) == SANDPIPER_DONE && sandpiper_vacuum_begin(&t, false) == SANDPIPER_VACUUM_RUNNING);
    does(SANDPIPER_VISITED_PAGE, 0);
    CHECK(sandpiper_slot_at(&t, 0, 4, &slot) == SANDPIPER_FOUND && slot.kind == SANDPIPER_DEAD);
    CHECK(sandpiper_vacuum_cancel(&t) == SANDPIPER_DONE);

    /* begun again, it goes over the page, and over both indexes */
    CHECK(sandpiper_vacuum_begin(&t, true) == SANDPIPER_DONE);
    does(SANDPIPER_VISITED_PAGE, 0);
    does(SANDPIPER_REMOVED_ENTRIES, 0);
    does(SANDPIPER_REMOVED_ENTRIES, 1);
    does(SANDPIPER_FREED_SLOTS, 0);
    CHECK(sandpiper_slot_at(&t, 0, 4, &slot) == SANDPIPER_FOUND && slot.kind == SANDPIPER_UNUSED);
    CHECK(sandpiper_vacuum_step(&t, &piece) == SANDPIPER_ENDED);
    CHECK(piece.kind == SANDPIPER_NO_PIECE && piece.number == 0 && piece.oldest == 5);
    CHECK(sandpiper_begin(&t, 1) == SANDPIPER_DONE && sandpiper_insert(&t, 1, set_row(row, 11, 110, "")) == SANDPIPER_DONE);
    CHECK(sandpiper_slot_at(&t, 0, 4, &slot) == SANDPIPER_FOUND && slot.kind == SANDPIPER_NORMAL && slot.key == 11);
    close_table();
}

/* The handle may move, and be opened again; a session and a cursor that are open at its end do no harm. */
static void a_handle_may_move(void) {
    struct sandpiper moved;
    size_t count;
    open_table();
    CHECK(sandpiper_begin(&t, 7) == SANDPIPER_DONE && sandpiper_open_heap(&t, 7) == SANDPIPER_DONE);
    CHECK(sandpiper_next(&t, 7, place, 1, &count) == SANDPIPER_ROWS && count == 1 && place->key == 1);
    memcpy(&moved, &t, sizeof t);
    memset(&t, 0, sizeof t);
    CHECK(sandpiper_next(&moved, 7, place, 1, &count) == SANDPIPER_ROWS && count == 1 && place->key == 2);
    CHECK(sandpiper_close(&moved) == SANDPIPER_DONE && !moved.is_open);
    open_table();
    close_table();
}

int main(void) {
    row = new_place();
    place = new_place();
    a_row_comes_back_as_it_was_written();
    a_session_keeps_its_view();
    a_ring_of_two_waits_is_a_deadlock();
    cursors_hand_out_what_the_session_reads();
    savepoints_take_back();
    pages_can_be_looked_into();
    places_change_no_answer();
    a_vacuum_frees_slots();
    a_handle_may_move();
    free(row);
    free(place);
    puts("all right");
    return 0;
}
