/* Times one workload on one store, in a process of its own: turn WORKLOAD ROWS ORDER STEP, as turns.py calls it. STORE names the store.
 *
 * WORKLOAD is insert, get, scan, update or delete, of each row in any order, some 300,000 or more in all, or rewrite, which updates each
 * row ten times. ORDER is that of the keys at loading, ascending or random, and each key is a multiple of STEP, modulo 2^64. There is a
 * transaction an operation, but 50 inserts in one. It prints the nanoseconds of processor time that an operation took, or a scanned row. */
#include "store.h"

#include <string.h>
#include <time.h>

#define TOGETHER 50

static const struct store *const store = &STORE;
static uint64_t seed = 88172645463325252u;

static uint64_t drawn(uint64_t limit) {
    seed ^= seed >> 12, seed ^= seed << 25, seed ^= seed >> 27;
    return ((seed * 2685821657736338717u) >> 20) % limit;
}

static void shuffle(uint64_t *keys, uint64_t rows) {
    for (uint64_t i = rows; i > 1; i--) {
        uint64_t j = drawn(i), key = keys[i - 1];
        keys[i - 1] = keys[j];
        keys[j] = key;
    }
}

static double seconds_used(void) {
    struct timespec t;
    clock_gettime(CLOCK_PROCESS_CPUTIME_ID, &t);
    return (double)t.tv_sec + (double)t.tv_nsec / 1e9;
}

static struct row row_of(uint64_t key, uint64_t number) {
    struct row row;
    memset(&row, 0, sizeof row);
    row.key = key;
    row.cols[0] = (int64_t)number;
    return row;
}

static void insert_all(const uint64_t *keys, uint64_t rows) {
    for (uint64_t i = 0; i < rows; i += TOGETHER) {
        store->begin(true);
        for (uint64_t j = i; j < i + TOGETHER && j < rows; j++) {
            struct row row = row_of(keys[j], j);
            store->insert(&row);
        }
        store->commit();
    }
}

static void scan_all(uint64_t rows) {
    int64_t sum;
    store->begin(false);
    DID(store->scan(&sum) == rows);
    store->commit();
}

static void do_each(char workload, const uint64_t *keys, uint64_t rows) {
    for (uint64_t i = 0; i < rows; i++) {
        struct row row = row_of(keys[i], i);
        store->begin(workload != 'g');
        if (workload == 'g')
            store->get(keys[i], &row);
        else if (workload == 'u' || workload == 'r')
            store->update(&row);
        else
            store->remove(keys[i]);
        store->commit();
        DID(row.key == keys[i]);
    }
}

int main(int argc, char **argv) {
    DID(argc == 5);
    char workload = argv[1][0];
    uint64_t rows = strtoull(argv[2], NULL, 10), step = strtoull(argv[4], NULL, 10), *keys = malloc(rows * sizeof *keys);
    DID(rows > 0 && keys);
    for (uint64_t i = 0; i < rows; i++) keys[i] = i * step;
    bool changes = workload != 'g' && workload != 's';
    /* small tables are asked more often, and loaded anew where the workload changes them */
    uint64_t rounds = rows < 300000 ? 300000 / rows : 1, loads = changes ? rounds : 1, times = workload == 'r' ? 10 : changes ? 1 : rounds * 3;
    double used = 0;
    for (uint64_t load = 0; load < loads; load++) {
        if (argv[3][0] == 'r')
            shuffle(keys, rows);
        else
            for (uint64_t i = 0; i < rows; i++) keys[i] = i * step;
        store->open();
        double start = seconds_used();
        insert_all(keys, rows);
        if (workload != 'i') {
            shuffle(keys, rows);
            start = seconds_used();
            for (uint64_t time = 0; time < times; time++) workload == 's' ? scan_all(rows) : do_each(workload, keys, rows);
        }
        used += seconds_used() - start;
        store->close();
    }
    printf("%.1f\n", used / (double)(loads * times * rows) * 1e9);
    free(keys);
    return 0;
}
