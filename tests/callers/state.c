/* What a table tells of itself: its state, the heads of its pages, and the library's version. */
#include "checks.h"

_Static_assert(sizeof(struct sandpiper_state) == 80, "ten words");
_Static_assert(sizeof(struct sandpiper_page) == 16, "two words");

static struct sandpiper t;
static struct sandpiper_row row;

/* Opens a table with indexes by columns 0 and 3, whose ids begin with `first` and end `stop` numbers after the oldest. */
static void open_table(uint32_t first, uint32_t stop) {
    const struct sandpiper_settings settings = {4, stop, 0, first, 64, {true, false, false, true}};
    CHECK(sandpiper_open(&settings, &t) == SANDPIPER_DONE);
}

static struct sandpiper_state state_now(void) {
    struct sandpiper_state state;
    CHECK(sandpiper_state_of(&t, &state) == SANDPIPER_DONE);
    return state;
}

/* Writes a row of the key in a transaction of its own, which takes an id, and answers what the insert did. */
static uint32_t write_row(uint64_t key) {
    CHECK(sandpiper_begin(&t, 1) == SANDPIPER_DONE);
    uint32_t status = sandpiper_insert(&t, 1, set_row(&row, key, 10, "row"));
    CHECK(sandpiper_commit(&t, 1) == SANDPIPER_COMMITTED);
    return status;
}

static void run_vacuum(bool aggressive) {
    struct sandpiper_piece piece;
    CHECK(sandpiper_vacuum_begin(&t, aggressive) == SANDPIPER_DONE);
    CHECK(state_now().vacuum == (aggressive ? 2 : 1));
    while (sandpiper_vacuum_step(&t, &piece) == SANDPIPER_WORKED) {}
    CHECK(state_now().vacuum == 0);
}

static void a_new_table_is_empty(void) {
    open_table(3, 40);
    struct sandpiper_state state = state_now();
    CHECK(state.next_id == 3 && state.oldest_id == 3 && state.ids_left == 40);
    CHECK(state.pages == 0 && state.open_sessions == 0 && state.vacuum == 0);
    for (int index = 0; index < 5; index++) CHECK(state.entries[index] == 0);
    CHECK(state.has_index[0] && state.has_index[1] && !state.has_index[2] && !state.has_index[3] && state.has_index[4]);
    sandpiper_close(&t);
}

static void without_a_table_nothing_is_written(void) {
    struct sandpiper_state state = {.next_id = 77, .vacuum = 77};
    struct sandpiper_page head = {77, 77, 77};
    CHECK(sandpiper_state_of(&t, &state) == SANDPIPER_NO_ENGINE && state.next_id == 77 && state.vacuum == 77);
    CHECK(sandpiper_page_at(&t, 0, &head) == SANDPIPER_NO_ROW && head.change == 77 && head.bits == 77 && head.slots == 77);
}

static void what_is_written_counts(void) {
    open_table(3, 40);
    CHECK(sandpiper_begin(&t, 0) == SANDPIPER_DONE && sandpiper_begin(&t, 63) == SANDPIPER_DONE);
    CHECK(write_row(1) == SANDPIPER_DONE && write_row(2) == SANDPIPER_DONE);
    struct sandpiper_state state = state_now();
    CHECK(state.open_sessions == (UINT64_C(1) << 63 | 1));
    CHECK(state.next_id == 5 && state.oldest_id == 3 && state.ids_left == 38 && state.pages == 1);
    CHECK(state.entries[0] == 2 && state.entries[1] == 2 && state.entries[2] == 0 && state.entries[4] == 2);
    CHECK(sandpiper_abort(&t, 63) == SANDPIPER_ROLLED_BACK && state_now().open_sessions == 1);
    CHECK(sandpiper_abort(&t, 0) == SANDPIPER_ROLLED_BACK && state_now().open_sessions == 0);
    run_vacuum(true);
    state = state_now();
    CHECK(state.next_id == 5 && state.oldest_id == 5 && state.ids_left == 40);
    sandpiper_close(&t);
}

/* As many ids can be given as the state says, and after a vacuum so many again. */
static void ids_are_given_until_none_is_left(uint32_t first, uint32_t stop, uint32_t left) {
    open_table(first, stop);
    CHECK(state_now().ids_left == left);
    for (uint32_t given = 0; given < left; given++) {
        CHECK(write_row(given) == SANDPIPER_DONE);
        CHECK(state_now().ids_left == left - given - 1);
    }
    CHECK(write_row(left) == SANDPIPER_NEEDS_FREEZE);
    run_vacuum(false);
    CHECK(state_now().ids_left == 0 && write_row(left) == SANDPIPER_NEEDS_FREEZE);
    run_vacuum(true);
    CHECK(state_now().ids_left > 0 && write_row(left) == SANDPIPER_DONE);
    sandpiper_close(&t);
}

/* A page's change number counts slots that changed, and a vacuum notes that all sessions see all of it. */
static void heads_of_pages(void) {
    struct sandpiper_page head;
    open_table(3, 40);
    CHECK(write_row(1) == SANDPIPER_DONE && write_row(2) == SANDPIPER_DONE);
    CHECK(sandpiper_page_at(&t, 0, &head) == SANDPIPER_FOUND && head.change == 2 && head.bits == 0 && head.slots == 2);
    CHECK(sandpiper_page_at(&t, 1, &head) == SANDPIPER_NO_ROW && head.change == 2 && head.slots == 2);
    CHECK(sandpiper_vacuum_begin(&t, true) == SANDPIPER_DONE && sandpiper_vacuum_cancel(&t) == SANDPIPER_DONE);
    run_vacuum(true);
    CHECK(sandpiper_page_at(&t, 0, &head) == SANDPIPER_FOUND && head.bits == 2 && head.slots == 2);
    CHECK(write_row(3) == SANDPIPER_DONE);
    CHECK(sandpiper_page_at(&t, 0, &head) == SANDPIPER_FOUND && head.bits == 0 && head.slots == 3);
    sandpiper_close(&t);
}

static void header_and_library_are_of_one_version(void) {
    char version[8];
    snprintf(version, sizeof version, "%d.%d", SANDPIPER_VERSION_MAJOR, SANDPIPER_VERSION_MINOR);
    CHECK(strcmp(version, SANDPIPER_VERSION) == 0);
    CHECK(sandpiper_version() == SANDPIPER_VERSION_MAJOR * 100 + SANDPIPER_VERSION_MINOR);
}

int main(void) {
    a_new_table_is_empty();
    without_a_table_nothing_is_written();
    what_is_written_counts();
    ids_are_given_until_none_is_left(3, 40, 40);
    /* 4294967290 to 4294967295, and 3, which is 9 numbers after the first: 0, 1 and 2 are never given, and count */
    ids_are_given_until_none_is_left(4294967290u, 10, 7);
    ids_are_given_until_none_is_left(4294967290u, 5, 5);
    heads_of_pages();
    header_and_library_are_of_one_version();
    puts("all right");
    return 0;
}
