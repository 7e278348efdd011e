/* Has the library answer each status of the header, and prints the names of those that it did. Linked with
 * -Wl,--wrap=malloc,--wrap=realloc. */
#include "checks.h"
#include "refusing.h"

static struct sandpiper t;
static struct sandpiper_settings settings;
static struct sandpiper_row row;
static size_t count;
static struct sandpiper_piece piece;

/* The status of opening a second table, of these settings. */
static uint32_t opened(void) {
    struct sandpiper other = {0};
    uint32_t status = sandpiper_open(&settings, &other);
    CHECK(other.is_open == (status == SANDPIPER_DONE));
    sandpiper_close(&other);
    return status;
}

/* Each is asked of a table of one page that may give 40 ids; session 0 is open, and key 1 was committed with no body. */
static uint32_t done(void) { return sandpiper_savepoint(&t, 0); }
static uint32_t found(void) { return sandpiper_get(&t, 0, 1, &row); }
static uint32_t no_row(void) { return sandpiper_get(&t, 0, 2, &row); }
static uint32_t committed(void) { return sandpiper_commit(&t, 0); }
static uint32_t rolled_back(void) { return sandpiper_abort(&t, 0); }
static uint32_t next(size_t capacity) { return sandpiper_next(&t, 0, &row, capacity, &count); }
static uint32_t rows(void) { return sandpiper_open_heap(&t, 0), next(1); }
static uint32_t end(void) { return rows(), next(1); }
static uint32_t not_open(void) { return sandpiper_commit(&t, 1); }
static uint32_t already_open(void) { return sandpiper_begin(&t, 0); }
static uint32_t already_there(void) { return row.key = 1, sandpiper_insert(&t, 0, &row); }
static uint32_t not_there(void) { return sandpiper_delete(&t, 0, 2); }
static uint32_t cursor_open(void) { return sandpiper_open_heap(&t, 0), sandpiper_delete(&t, 0, 1); }
static uint32_t no_cursor(void) { return next(1); }
static uint32_t no_place(void) { return sandpiper_open_heap(&t, 0), next(0); }
static uint32_t no_savepoint(void) { return sandpiper_release(&t, 0); }
static uint32_t too_large(void) { return row.length = SANDPIPER_BODY + 1, sandpiper_insert(&t, 0, &row); }
static uint32_t bad_bounds(void) { return sandpiper_open_by_key(&t, 0, 2, 1); }
static uint32_t no_such_page(void) { return sandpiper_prune(&t, 1); }
static uint32_t no_such_index(void) { return sandpiper_open_index(&t, 0, 1, 0, 0); }
static uint32_t no_such_session(void) { return sandpiper_begin(&t, SANDPIPER_SESSIONS); }
static uint32_t index_too_new(void) {
    CHECK(sandpiper_create_index(&t, 0) == SANDPIPER_DONE);
    return sandpiper_open_index(&t, 0, 1, 0, 0);
}
static uint32_t index_busy(void) { return sandpiper_delete(&t, 0, 1), sandpiper_create_index(&t, 0); }
static uint32_t stale(void) {
    struct sandpiper_action kill = {1, SANDPIPER_KILL, 0};
    return sandpiper_apply_plan(&t, 0, 1, &kill, 1);
}
static uint32_t no_vacuum(void) { return sandpiper_vacuum_cancel(&t); }
static uint32_t vacuum_running(void) { return sandpiper_vacuum_begin(&t, false), sandpiper_vacuum_begin(&t, true); }
static uint32_t worked(void) { return sandpiper_vacuum_begin(&t, false), sandpiper_vacuum_step(&t, &piece); }
static uint32_t ended(void) { return worked(), sandpiper_vacuum_step(&t, &piece); }
static uint32_t no_engine(void) { return sandpiper_close(&t), sandpiper_begin(&t, 0); }
static uint32_t has_engine(void) { return sandpiper_open(&settings, &t); }
static uint32_t no_ticket(void) { return sandpiper_ticket_rows(&(struct sandpiper_ticket){0}, &row, 1, &count); }
static uint32_t has_ticket(void) {
    struct sandpiper_ticket ticket = {0};
    CHECK(sandpiper_take_page(&t, 0, 0, &ticket) == SANDPIPER_DONE);
    uint32_t status = sandpiper_take_page(&t, 0, 0, &ticket);
    CHECK(sandpiper_close_ticket(&ticket) == SANDPIPER_DONE);
    return status;
}
static uint32_t too_many_pages(void) {
    static uint32_t pages[SANDPIPER_PICTURE_PAGES + 1];
    char text;
    return sandpiper_draw(&t, pages, SANDPIPER_PICTURE_PAGES + 1, &text, 1, &count);
}
static uint32_t bad_max_pages(void) { return settings.max_pages = 65537, opened(); }
static uint32_t bad_stop_age(void) { return settings.stop_age = 2144483649u, opened(); }
static uint32_t bad_freeze_min_age(void) { return settings.freeze_min_age = 1000000001u, opened(); }
static uint32_t bad_first_xid(void) { return settings.first_xid = 2, opened(); }
static uint32_t bad_dead_limit(void) { return settings.dead_limit = 4097, opened(); }

static uint32_t busy(void) {
    row.key = 2;
    CHECK(sandpiper_begin(&t, 63) == SANDPIPER_DONE && sandpiper_insert(&t, 63, &row) == SANDPIPER_DONE);
    return sandpiper_insert(&t, 0, &row) - 63;
}

/* Session 0 waits for 63, which then would wait for 0. */
static uint32_t deadlock(void) {
    row.key = 3;
    CHECK(sandpiper_insert(&t, 0, &row) == SANDPIPER_DONE && busy() == SANDPIPER_BUSY);
    row.key = 3;
    return sandpiper_insert(&t, 63, &row);
}

static uint32_t conflict(void) {
    CHECK(busy() == SANDPIPER_BUSY && sandpiper_commit(&t, 63) == SANDPIPER_COMMITTED);
    return sandpiper_insert(&t, 0, &row);
}

static uint32_t failed(void) { return conflict(), sandpiper_get(&t, 0, 1, &row); }

static uint32_t too_deep(void) {
    for (int i = 0; i < SANDPIPER_SAVEPOINTS; i++) CHECK(sandpiper_savepoint(&t, 0) == SANDPIPER_DONE);
    return sandpiper_savepoint(&t, 0);
}

/* Of 8168 bytes a row of 1096, with its slot of 4, takes 1100: seven fit beside the first. */
static uint32_t no_room(void) {
    row.length = SANDPIPER_BODY;
    for (row.key = 2; row.key < 9; row.key++) CHECK(sandpiper_insert(&t, 0, &row) == SANDPIPER_DONE);
    return sandpiper_insert(&t, 0, &row);
}

/* Each transaction that writes takes an id. */
static uint32_t needs_freeze(void) {
    uint32_t status = SANDPIPER_DONE;
    for (row.key = 2; row.key < 50 && status == SANDPIPER_DONE; row.key++) {
        CHECK(sandpiper_begin(&t, 1) == SANDPIPER_DONE);
        status = sandpiper_insert(&t, 1, &row);
        CHECK(sandpiper_commit(&t, 1) == SANDPIPER_COMMITTED);
    }
    return status;
}

/* Only a row that is too large has memory asked for its body. */
static uint32_t no_memory(void) {
    row.key = 2;
    row.length = SANDPIPER_BODY + 1;
    asked = 0;
    counts = true;
    uint32_t status = sandpiper_insert(&t, 0, &row);
    counts = false;
    row.length = 1;
    return status;
}

#define CASE(name, call) {#name, SANDPIPER_##name, call}

static const struct {
    const char *name;
    uint32_t status;
    uint32_t (*call)(void);
} cases[] = {
    CASE(DONE, done), CASE(FOUND, found), CASE(NO_ROW, no_row), CASE(COMMITTED, committed), CASE(ROLLED_BACK, rolled_back),
    CASE(ROWS, rows), CASE(END, end), CASE(WORKED, worked), CASE(ENDED, ended),
    CASE(NOT_OPEN, not_open), CASE(ALREADY_OPEN, already_open), CASE(FAILED, failed),
    CASE(ALREADY_THERE, already_there), CASE(NOT_THERE, not_there), CASE(CONFLICT, conflict), CASE(CURSOR_OPEN, cursor_open),
    CASE(NO_CURSOR, no_cursor), CASE(TOO_DEEP, too_deep), CASE(NO_SAVEPOINT, no_savepoint), CASE(TOO_LARGE, too_large),
    CASE(NO_ROOM, no_room), CASE(NEEDS_FREEZE, needs_freeze), CASE(BAD_BOUNDS, bad_bounds), CASE(NO_MEMORY, no_memory),
    CASE(NO_SUCH_PAGE, no_such_page), CASE(NO_SUCH_INDEX, no_such_index), CASE(NO_SUCH_SESSION, no_such_session),
    CASE(VACUUM_RUNNING, vacuum_running), CASE(NO_VACUUM, no_vacuum), CASE(INDEX_TOO_NEW, index_too_new), CASE(INDEX_BUSY, index_busy),
    CASE(NO_ENGINE, no_engine), CASE(HAS_ENGINE, has_engine), CASE(NO_PLACE, no_place), CASE(NO_TICKET, no_ticket), CASE(HAS_TICKET, has_ticket),
    CASE(TOO_MANY_PAGES, too_many_pages),
    CASE(BAD_MAX_PAGES, bad_max_pages),
    CASE(BAD_STOP_AGE, bad_stop_age), CASE(BAD_FREEZE_MIN_AGE, bad_freeze_min_age), CASE(BAD_FIRST_XID, bad_first_xid), CASE(BAD_DEAD_LIMIT, bad_dead_limit),
    CASE(DEADLOCK, deadlock), CASE(STALE, stale), CASE(BUSY, busy),
};

/* Each status has words of its own, and no other number has any. */
static void check_words(void) {
    size_t count = sizeof cases / sizeof *cases, statuses = 0;
    for (size_t i = 0; i < count; i++)
        for (size_t j = 0; j < i; j++) CHECK(strcmp(sandpiper_words(cases[i].status), sandpiper_words(cases[j].status)) != 0);
    for (uint32_t status = 0; status < 1000; status++) statuses += strcmp(sandpiper_words(status), "no status") != 0;
    CHECK(statuses == count - 1 + SANDPIPER_SESSIONS);
    CHECK(strcmp(sandpiper_words(SANDPIPER_BUSY + 63), sandpiper_words(SANDPIPER_BUSY)) == 0);
}

int main(void) {
    check_words();
    for (size_t i = 0; i < sizeof cases / sizeof *cases; i++) {
        settings = (struct sandpiper_settings){1, 40, 0, 3, 64, {false, false, false, false}};
        row = (struct sandpiper_row){.key = 1};
        CHECK(sandpiper_open(&settings, &t) == SANDPIPER_DONE && sandpiper_begin(&t, 0) == SANDPIPER_DONE);
        CHECK(sandpiper_insert(&t, 0, &row) == SANDPIPER_DONE && sandpiper_commit(&t, 0) == SANDPIPER_COMMITTED);
        CHECK(sandpiper_begin(&t, 0) == SANDPIPER_DONE);
        uint32_t status = cases[i].call();
        if (status != cases[i].status) {
            fprintf(stderr, "%s is %u, and %u was answered\n", cases[i].name, cases[i].status, status);
            return 1;
        }
        puts(cases[i].name);
        sandpiper_close(&t);
    }
    return 0;
}
