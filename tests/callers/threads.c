/* Eight threads use one table, each by a session of its own, and one of them cleans: threads [free]. Each call is made under a lock of
 * this program's, as docs/callers.md asks; with the word free it is not, so that a checker of races has something to find. Each thread adds
 * 1 to counters that all share, and tries again where another was first. At the end the counters have what the threads counted. */
#include "checks.h"

#include <pthread.h>
#include <sched.h>
#include <stdbool.h>

enum { THREADS = 8, COUNTERS = 4, ROUNDS = 100 };

static struct sandpiper table;
static pthread_mutex_t latch = PTHREAD_MUTEX_INITIALIZER;
static bool is_locked = true;

struct worker {
    uint8_t session;
    uint64_t added, refused;
};

static void lock(void) {
    if (is_locked) CHECK(pthread_mutex_lock(&latch) == 0);
}

/* Lets go, and lets another thread go first. */
static void unlock(void) {
    if (is_locked) CHECK(pthread_mutex_unlock(&latch) == 0);
    sched_yield();
}

static uint32_t begin(uint8_t s) {
    lock();
    uint32_t status = s % 2 ? sandpiper_begin_read_committed(&table, s) : sandpiper_begin(&table, s);
    unlock();
    return status;
}

/* Adds 1 to the counter, by a get and an update. By statement another may have written between the two, so these stand in one lock. */
static uint32_t add(uint8_t s, uint64_t counter, struct sandpiper_row *row) {
    lock();
    uint32_t status = sandpiper_get(&table, s, counter, row);
    CHECK(status == SANDPIPER_FOUND);
    row->cols[0]++;
    status = sandpiper_update(&table, s, row);
    unlock();
    return status;
}

static uint32_t end(uint8_t s, bool keeps) {
    lock();
    uint32_t status = keeps ? sandpiper_commit(&table, s) : sandpiper_abort(&table, s);
    unlock();
    return status;
}

static void clean(void) {
    lock();
    uint32_t status = sandpiper_vacuum_begin(&table, false);
    unlock();
    CHECK(status == SANDPIPER_DONE);
    do {
        struct sandpiper_piece piece;
        lock();
        status = sandpiper_vacuum_step(&table, &piece);
        unlock();
    } while (status == SANDPIPER_WORKED);
    CHECK(status == SANDPIPER_ENDED);
}

static void *work(void *given) {
    struct worker *worker = given;
    struct sandpiper_row *row = new_place();
    for (int round = 0; round < ROUNDS;) {
        CHECK(begin(worker->session) == SANDPIPER_DONE);
        uint32_t status = add(worker->session, (uint64_t)(round % COUNTERS), row);
        /* (by statement nothing conflicts, and a Busy names another of these sessions) */
        bool by_statement = worker->session % 2, is_busy = status >= SANDPIPER_BUSY && status < SANDPIPER_BUSY + THREADS;
        CHECK(status == SANDPIPER_DONE || (status == SANDPIPER_CONFLICT && !by_statement) || is_busy);
        CHECK(status != (uint32_t)SANDPIPER_BUSY + worker->session);
        bool done = status == SANDPIPER_DONE;
        CHECK(end(worker->session, done) == (done ? SANDPIPER_COMMITTED : SANDPIPER_ROLLED_BACK));
        worker->added += done, worker->refused += !done, round += done;
        if (worker->session == 0 && round % 10 == 0) clean();
    }
    free(row);
    return NULL;
}

int main(int argc, char **argv) {
    static struct worker workers[THREADS];
    pthread_t threads[THREADS];
    struct sandpiper_row *row = new_place();
    uint64_t added = 0, refused = 0, counted = 0;
    is_locked = argc < 2 || strcmp(argv[1], "free");
    CHECK(sandpiper_open(&(struct sandpiper_settings)SANDPIPER_WIDEST, &table) == SANDPIPER_DONE);
    CHECK(sandpiper_begin(&table, 0) == SANDPIPER_DONE);
    for (uint64_t counter = 0; counter < COUNTERS; counter++)
        CHECK(sandpiper_insert(&table, 0, set_row(row, counter, 0, "counter")) == SANDPIPER_DONE);
    CHECK(sandpiper_commit(&table, 0) == SANDPIPER_COMMITTED);
    for (uint8_t s = 0; s < THREADS; s++) {
        workers[s].session = s;
        CHECK(pthread_create(&threads[s], NULL, work, &workers[s]) == 0);
    }
    for (uint8_t s = 0; s < THREADS; s++) {
        CHECK(pthread_join(threads[s], NULL) == 0);
        added += workers[s].added, refused += workers[s].refused;
    }
    CHECK(sandpiper_begin(&table, 0) == SANDPIPER_DONE);
    for (uint64_t counter = 0; counter < COUNTERS; counter++) {
        CHECK(sandpiper_get(&table, 0, counter, row) == SANDPIPER_FOUND);
        counted += (uint64_t)row->cols[0];
    }
    CHECK(added == THREADS * ROUNDS && counted == added);
    CHECK(sandpiper_close(&table) == SANDPIPER_DONE);
    printf("%llu added by %d threads, %llu refused\n", (unsigned long long)added, THREADS, (unsigned long long)refused);
    free(row);
    return 0;
}
