/* One thread reads pages by tickets while another writes: tickets [locked]. The writer moves 1 from a row to another in each transaction, so
 * that every view has the same sum. The reader takes a ticket of each page under the lock, and reads and closes them without it; with the
 * word locked it closes them under it, since a checker of races that looks for locks alone sees no order otherwise. Neither leaves the other
 * far behind, however threads are scheduled: the reader waits until something was moved since its last view, and the writer until there is a
 * view of what it did lately. At the end a view that was taken first is read again, after all updates, a vacuum and the close of the table. */
#include "checks.h"

#include <pthread.h>
#include <stdbool.h>

enum { ROWS = 900, MOST_PAGES = 64, ROUNDS = 60, EACH = 5, MOST_AHEAD = 500 };

static struct sandpiper table;
static pthread_mutex_t latch = PTHREAD_MUTEX_INITIALIZER;
static pthread_cond_t has_changed = PTHREAD_COND_INITIALIZER;
/* under the lock: how many moves there were, and by the last view, and whether all views were read */
static uint64_t moves, seen_moves;
static bool is_read;
static bool is_closed_locked;

struct view {
    uint32_t pages;
    struct sandpiper_ticket tickets[MOST_PAGES];
};

static void lock(void) { CHECK(pthread_mutex_lock(&latch) == 0); }

/* Lets go, and tells who waits for a change. */
static void unlock(void) { CHECK(pthread_cond_broadcast(&has_changed) == 0 && pthread_mutex_unlock(&latch) == 0); }

/* Waits for a change, without the lock meanwhile. */
static void wait_for_change(void) { CHECK(pthread_cond_wait(&has_changed, &latch) == 0); }

/* A ticket of each page, all at one state, with so many moves at least before it. */
static void take(struct view *view, uint64_t before) {
    struct sandpiper_state state;
    lock();
    while (moves < before) wait_for_change();
    seen_moves = moves;
    CHECK(sandpiper_begin(&table, 1) == SANDPIPER_DONE && sandpiper_state_of(&table, &state) == SANDPIPER_DONE);
    CHECK(state.pages <= MOST_PAGES);
    view->pages = state.pages;
    for (uint32_t page = 0; page < view->pages; page++)
        CHECK(sandpiper_take_page(&table, 1, page, &view->tickets[page]) == SANDPIPER_DONE && view->tickets[page].is_taken);
    CHECK(sandpiper_commit(&table, 1) == SANDPIPER_COMMITTED);
    unlock();
}

/* Each row is there once, and their sum is that of all views. Answers how many have another value than at first. */
static size_t check(struct view *view, struct sandpiper_row *rows) {
    static bool seen[ROWS];
    int64_t sum = 0;
    size_t found = 0, moved = 0, count;
    memset(seen, 0, sizeof seen);
    for (uint32_t page = 0; page < view->pages; page++) {
        uint32_t status = sandpiper_ticket_rows(&view->tickets[page], rows, SANDPIPER_PAGE_ROWS, &count);
        CHECK(status == (count ? SANDPIPER_ROWS : SANDPIPER_NO_ROW));
        for (size_t i = 0; i < count; i++, found++) {
            CHECK(rows[i].key < ROWS && !seen[rows[i].key] && has_body(rows + i, "ticket"));
            seen[rows[i].key] = true, sum += rows[i].cols[0], moved += rows[i].cols[0] != 1;
        }
    }
    CHECK(found == ROWS && sum == ROWS);
    return moved;
}

static void close_all(struct view *view) {
    if (is_closed_locked) lock();
    for (uint32_t page = 0; page < view->pages; page++) CHECK(sandpiper_close_ticket(&view->tickets[page]) == SANDPIPER_DONE);
    if (is_closed_locked) unlock();
}

static void *read_views(void *rows) {
    static struct view view;
    for (int round = 0; round < ROUNDS; round++) {
        take(&view, seen_moves + EACH);
        CHECK(check(&view, rows) == check(&view, rows));
        close_all(&view);
    }
    lock(), is_read = true, unlock();
    return NULL;
}

/* Moves 1 between two rows. */
static void move(uint64_t from, uint64_t to, struct sandpiper_row *row) {
    CHECK(sandpiper_begin(&table, 0) == SANDPIPER_DONE && sandpiper_get(&table, 0, from, row) == SANDPIPER_FOUND);
    row->cols[0]--;
    CHECK(sandpiper_update(&table, 0, row) == SANDPIPER_DONE && sandpiper_get(&table, 0, to, row) == SANDPIPER_FOUND);
    row->cols[0]++;
    CHECK(sandpiper_update(&table, 0, row) == SANDPIPER_DONE && sandpiper_commit(&table, 0) == SANDPIPER_COMMITTED);
}

static void clean(void) {
    struct sandpiper_piece piece;
    uint32_t status;
    CHECK(sandpiper_vacuum_begin(&table, false) == SANDPIPER_DONE);
    while ((status = sandpiper_vacuum_step(&table, &piece)) == SANDPIPER_WORKED) continue;
    CHECK(status == SANDPIPER_ENDED);
}

/* Writes for as long as the other reads. */
static void write_on(struct sandpiper_row *row) {
    for (bool done = false; !done;) {
        lock();
        while (!is_read && moves > seen_moves + MOST_AHEAD) wait_for_change();
        done = is_read;
        for (int i = 0; i < EACH; i++, moves++) move(moves * 37 % ROWS, (moves * 37 + 400) % ROWS, row);
        if (moves % (100 * EACH) == 0) clean();
        unlock();
    }
}

/* Each of these is asked of a table whose page 0 session 1 may take. */
static void check_refusals(struct sandpiper_row *rows) {
    struct sandpiper_ticket ticket = {0};
    size_t count = 77;
    CHECK(sandpiper_take_page(&table, 64, 0, &ticket) == SANDPIPER_NO_SUCH_SESSION);
    CHECK(sandpiper_take_page(&table, 1, 0, &ticket) == SANDPIPER_NOT_OPEN);
    CHECK(sandpiper_begin(&table, 1) == SANDPIPER_DONE);
    CHECK(sandpiper_take_page(&table, 1, MOST_PAGES, &ticket) == SANDPIPER_NO_SUCH_PAGE);
    CHECK(!ticket.is_taken && !ticket.held);
    CHECK(sandpiper_ticket_rows(&ticket, rows, 1, &count) == SANDPIPER_NO_TICKET && count == 0);
    CHECK(sandpiper_close_ticket(&ticket) == SANDPIPER_NO_TICKET);
    CHECK(sandpiper_take_page(&table, 1, 0, &ticket) == SANDPIPER_DONE && ticket.is_taken);
    CHECK(sandpiper_take_page(&table, 1, 0, &ticket) == SANDPIPER_HAS_TICKET && ticket.is_taken);
    rows->key = 77;
    CHECK(sandpiper_ticket_rows(&ticket, rows, 1, &count) == SANDPIPER_NO_PLACE && count > 1 && rows->key == 77);
    rows[count].key = 77;
    CHECK(sandpiper_ticket_rows(&ticket, rows, count, &count) == SANDPIPER_ROWS && rows->key == 0 && rows[count].key == 77);
    CHECK(sandpiper_close_ticket(&ticket) == SANDPIPER_DONE && !ticket.is_taken && !ticket.held);
    CHECK(sandpiper_commit(&table, 1) == SANDPIPER_COMMITTED);
}

int main(int argc, char **argv) {
    static struct view first;
    struct sandpiper_row *row = new_place(), *rows = malloc(SANDPIPER_PAGE_ROWS * sizeof *rows);
    pthread_t reader;
    is_closed_locked = argc > 1 && strcmp(argv[1], "locked") == 0;
    CHECK(rows && sandpiper_open(&(struct sandpiper_settings)SANDPIPER_WIDEST, &table) == SANDPIPER_DONE);
    CHECK(sandpiper_begin(&table, 0) == SANDPIPER_DONE);
    for (uint64_t key = 0; key < ROWS; key++) CHECK(sandpiper_insert(&table, 0, set_row(row, key, 1, "ticket")) == SANDPIPER_DONE);
    CHECK(sandpiper_commit(&table, 0) == SANDPIPER_COMMITTED);
    check_refusals(rows);
    take(&first, 0);
    CHECK(pthread_create(&reader, NULL, read_views, rows) == 0);
    write_on(row);
    CHECK(pthread_join(reader, NULL) == 0);
    clean();
    CHECK(sandpiper_close(&table) == SANDPIPER_DONE);
    CHECK(check(&first, rows) == 0);
    close_all(&first);
    CHECK(moves >= ROUNDS * EACH && first.pages > 1);
    printf("%d views of %u pages and more were read beside %s transactions\n", ROUNDS, (unsigned)first.pages, moves > 1000 ? "many" : "some");
    free(row), free(rows);
    return 0;
}
