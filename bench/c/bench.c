/* Times rows in Sandpipercot, LMDB and SQLite: bench [ROWS ..], on 10,000, 100,000 and 1,000,000 rows where none are named.
 *
 * Each store is loaded, asked and emptied anew as often as a million operations take, the three in turn: inserts in ascending order
 * of keys, gets of any keys, a scan of all rows, an update of each row in any order, on the pages as they were loaded, and a delete of
 * each row in any order. All but the scan are done twice: each operation in a transaction of its own, and 50 in one. Times are of
 * the processor. The stores have to agree on what they read. */
#include "store.h"

#include <string.h>
#include <time.h>

#define OPERATIONS 1000000ull
#define TOGETHER 50

enum { INSERTS, GETS, SCAN, UPDATES, DELETES, WORKLOADS };

static const char *const workload_names[WORKLOADS] = {"inserts", "gets", "scanned rows", "updates", "deletes"};
static const struct store *const stores[] = {&sandpipercot_store, &lmdb_store, &sqlite_store};

#define STORES (sizeof stores / sizeof *stores)

static double seconds_used(void) {
    struct timespec t;
    clock_gettime(CLOCK_PROCESS_CPUTIME_ID, &t);
    return (double)t.tv_sec + (double)t.tv_nsec / 1e9;
}

static uint64_t seed;

static uint64_t drawn(uint64_t limit) {
    seed ^= seed >> 12, seed ^= seed << 25, seed ^= seed >> 27;
    return ((seed * 2685821657736338717u) >> 20) % limit;
}

/* The keys from 0 on, in any order. */
static void shuffle(uint64_t *keys, uint64_t rows) {
    for (uint64_t i = 0; i < rows; i++) {
        uint64_t j = drawn(i + 1);
        keys[i] = keys[j];
        keys[j] = i;
    }
}

/* Does one operation, and says what it read. */
static int64_t do_one(const struct store *store, int workload, uint64_t key, uint64_t number) {
    struct row row = {.key = key, .cols = {(int64_t)number, 1, 2, 3}, .body = "0123456789abcde"};
    switch (workload) {
    case INSERTS: store->insert(&row); return 0;
    case UPDATES: store->update(&row); return 0;
    case DELETES: store->remove(key); return 0;
    default: store->get(key, &row); return row.cols[0] + row.body[3];
    }
}

/* Does the workload on these keys, so many operations in a transaction; adds the seconds that it took, and returns what was read. */
static int64_t do_all(const struct store *store, int workload, const uint64_t *keys, uint64_t rows, int together, double *seconds) {
    int64_t read = 0;
    double start = seconds_used();
    for (uint64_t i = 0; i < rows; i += (uint64_t)together) {
        store->begin(workload != GETS);
        for (uint64_t j = i; j < i + (uint64_t)together && j < rows; j++) read += do_one(store, workload, keys ? keys[j] : j, j);
        store->commit();
    }
    *seconds += seconds_used() - start;
    return read;
}

static int64_t do_scan(const struct store *store, uint64_t rows, double *seconds) {
    int64_t sum;
    double start = seconds_used();
    store->begin(false);
    DID(store->scan(&sum) == rows);
    store->commit();
    *seconds += seconds_used() - start;
    return sum;
}

/* One round of a store: the seconds of each workload are added, and what was read is returned. */
static int64_t do_round(const struct store *store, uint64_t *keys, uint64_t rows, int together, double *seconds) {
    int64_t read = 0, after;
    store->open();
    do_all(store, INSERTS, NULL, rows, together, &seconds[INSERTS]);
    shuffle(keys, rows);
    read += do_all(store, GETS, keys, rows, together, &seconds[GETS]);
    read += do_scan(store, rows, &seconds[SCAN]);
    shuffle(keys, rows);
    do_all(store, UPDATES, keys, rows, together, &seconds[UPDATES]);
    double unused = 0;
    after = do_scan(store, rows, &unused);
    shuffle(keys, rows);
    do_all(store, DELETES, keys, rows, together, &seconds[DELETES]);
    DID(do_scan(store, 0, &unused) == 0);
    store->close();
    return read * 3 + after;
}

static void print_line(const char *name, uint64_t rows, const char *together, uint64_t done, const double *seconds) {
    printf("| %s | %llu | %s |", name, (unsigned long long)rows, together);
    for (size_t i = 0; i < STORES; i++) printf(" %.0f |", (double)done / seconds[i]);
    printf(" %.2f | %.2f |\n", seconds[1] / seconds[0], seconds[2] / seconds[0]);
    fflush(stdout);
}

static void measure(uint64_t rows, int together) {
    double seconds[STORES][WORKLOADS] = {{0}};
    uint64_t rounds = OPERATIONS > rows ? OPERATIONS / rows : 1, *keys = malloc(rows * sizeof *keys);
    DID(keys);
    for (uint64_t round = 0; round < rounds; round++) {
        int64_t read[STORES];
        for (size_t i = 0; i < STORES; i++) {
            seed = 88172645463325252u + round;
            read[i] = do_round(stores[i], keys, rows, together, seconds[i]);
            DID(read[i] == read[0]);
        }
    }
    for (int workload = 0; workload < WORKLOADS; workload++) {
        double each[STORES];
        for (size_t i = 0; i < STORES; i++) each[i] = seconds[i][workload];
        if (workload != SCAN || together != 1)
            print_line(workload_names[workload], rows, workload == SCAN ? "all" : together == 1 ? "1" : "50", rows * rounds, each);
    }
    free(keys);
}

int main(int argc, char **argv) {
    static char *usual[] = {"10000", "100000", "1000000"};
    char **sizes = argc > 1 ? argv + 1 : usual;
    int count = argc > 1 ? argc - 1 : 3;
    printf("| workload | rows | in a transaction |");
    for (size_t i = 0; i < STORES; i++) printf(" %s |", stores[i]->name);
    printf(" to lmdb | to sqlite |\n|---|---:|---:|---:|---:|---:|---:|---:|\n");
    for (int i = 0; i < count; i++) {
        uint64_t rows = strtoull(sizes[i], NULL, 10);
        DID(rows > 0);
        measure(rows, 1);
        measure(rows, TOGETHER);
    }
    return 0;
}
