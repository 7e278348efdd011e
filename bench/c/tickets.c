/* Times a scan by tickets beside writes: tickets ROWS.
 *
 * ROWS rows of 16 bytes are loaded and committed. One thread then updates rows, a transaction each, under a lock. Meanwhile another reads
 * all rows, again and again: first by a cursor of the heap, with the lock held for each batch of rows; then by a ticket of each page, with
 * the lock held to take them alone. Each lasts two seconds. Printed are rows read a second and updates a second, by the clock, beside those
 * of either thread alone. */
#define _POSIX_C_SOURCE 200809L
#include <sandpipercot.h>

#include <pthread.h>
#include <stdbool.h>
#include <stdio.h>
#include <stdlib.h>
#include <string.h>
#include <time.h>

#define SECONDS 2.0
#define AT_ONCE 32 /* tickets that are taken in one hold of the lock */
#define DID(is)                                                                                                                            \
    do {                                                                                                                                   \
        if (!(is)) {                                                                                                                       \
            fprintf(stderr, "%s:%d: refused: %s\n", __FILE__, __LINE__, #is);                                                              \
            exit(1);                                                                                                                       \
        }                                                                                                                                  \
    } while (0)

enum how { NOTHING, BY_CURSOR, BY_TICKETS };

static struct sandpiper table;
static pthread_mutex_t latch = PTHREAD_MUTEX_INITIALIZER;
static uint64_t rows;
static uint32_t pages;
static bool is_over; /* under the lock */

static void lock(void) { DID(pthread_mutex_lock(&latch) == 0); }
static void unlock(void) { DID(pthread_mutex_unlock(&latch) == 0); }

static double clock_now(void) {
    struct timespec t;
    clock_gettime(CLOCK_MONOTONIC, &t);
    return (double)t.tv_sec + (double)t.tv_nsec / 1e9;
}

static void load(void) {
    struct sandpiper_row row = {.length = 16};
    struct sandpiper_state state;
    DID(sandpiper_open(&(struct sandpiper_settings)SANDPIPER_WIDEST, &table) == SANDPIPER_DONE);
    DID(sandpiper_begin(&table, 0) == SANDPIPER_DONE);
    for (row.key = 0; row.key < rows; row.key++) DID(sandpiper_insert(&table, 0, &row) == SANDPIPER_DONE);
    DID(sandpiper_commit(&table, 0) == SANDPIPER_COMMITTED && sandpiper_state_of(&table, &state) == SANDPIPER_DONE);
    pages = state.pages;
}

/* Updates rows until it is over. Answers how many. */
static void *update(void *count) {
    uint64_t seed = 88172645463325252u, *done = count;
    struct sandpiper_row row = {.length = 16};
    for (bool over = false; !over; ++*done) {
        seed ^= seed >> 12, seed ^= seed << 25, seed ^= seed >> 27;
        row.key = seed * 2685821657736338717u % rows;
        row.cols[0]++;
        lock();
        DID(sandpiper_begin(&table, 0) == SANDPIPER_DONE && sandpiper_update(&table, 0, &row) == SANDPIPER_DONE);
        DID(sandpiper_commit(&table, 0) == SANDPIPER_COMMITTED);
        over = is_over;
        unlock();
    }
    return NULL;
}

/* All rows by a cursor of the heap. */
static uint64_t scan_by_cursor(void) {
    static struct sandpiper_row found[SANDPIPER_PAGE_ROWS];
    uint64_t seen = 0;
    size_t count;
    lock();
    DID(sandpiper_begin(&table, 1) == SANDPIPER_DONE && sandpiper_open_heap(&table, 1) == SANDPIPER_DONE);
    while (sandpiper_next(&table, 1, found, SANDPIPER_PAGE_ROWS, &count) == SANDPIPER_ROWS) {
        seen += count;
        unlock();
        lock();
    }
    DID(sandpiper_commit(&table, 1) == SANDPIPER_COMMITTED);
    unlock();
    return seen;
}

/* All rows by tickets, some pages at a time. The session stays open meanwhile, so that each ticket is of one view. */
static uint64_t scan_by_tickets(void) {
    static struct sandpiper_row found[SANDPIPER_PAGE_ROWS];
    static struct sandpiper_ticket tickets[AT_ONCE];
    uint64_t seen = 0;
    size_t count;
    lock();
    DID(sandpiper_begin(&table, 1) == SANDPIPER_DONE);
    struct sandpiper_state state;
    DID(sandpiper_state_of(&table, &state) == SANDPIPER_DONE);
    unlock();
    for (uint32_t page = 0; page < state.pages;) {
        int taken = 0;
        lock();
        for (; taken < AT_ONCE && page < state.pages; taken++, page++)
            DID(sandpiper_take_page(&table, 1, page, &tickets[taken]) == SANDPIPER_DONE);
        unlock();
        for (int at = 0; at < taken; at++) {
            uint32_t status = sandpiper_ticket_rows(&tickets[at], found, SANDPIPER_PAGE_ROWS, &count);
            DID(status == SANDPIPER_ROWS || status == SANDPIPER_NO_ROW);
            seen += count;
            DID(sandpiper_close_ticket(&tickets[at]) == SANDPIPER_DONE);
        }
    }
    lock();
    DID(sandpiper_commit(&table, 1) == SANDPIPER_COMMITTED);
    unlock();
    return seen;
}

/* Reads so for a while, with another thread that writes or none, and prints rows and updates a second. */
static void measure(const char *name, enum how how, bool writes) {
    pthread_t writer;
    uint64_t updates = 0, seen = 0;
    load();
    is_over = false;
    double from = clock_now();
    if (writes) DID(pthread_create(&writer, NULL, update, &updates) == 0);
    while (clock_now() - from < SECONDS) {
        uint64_t now = how == BY_CURSOR ? scan_by_cursor() : how == BY_TICKETS ? scan_by_tickets() : rows;
        DID(now == rows);
        seen += how == NOTHING ? 0 : now;
        if (how == NOTHING) nanosleep(&(struct timespec){0, 10000000}, NULL);
    }
    double seconds = clock_now() - from;
    lock(), is_over = true, unlock();
    if (writes) DID(pthread_join(writer, NULL) == 0);
    printf("%-24s %12.0f rows/s %12.0f updates/s, %u pages at first\n", name, (double)seen / seconds, (double)updates / seconds, (unsigned)pages);
    DID(sandpiper_close(&table) == SANDPIPER_DONE);
}

int main(int argc, char **argv) {
    rows = argc > 1 ? strtoull(argv[1], NULL, 10) : 100000;
    measure("updates alone", NOTHING, true);
    measure("cursor alone", BY_CURSOR, false);
    measure("tickets alone", BY_TICKETS, false);
    measure("cursor beside updates", BY_CURSOR, true);
    measure("tickets beside updates", BY_TICKETS, true);
    return 0;
}
