/* Times the parts of a vacuum, for README.md: entries of an index that are gone through, slots of pages that are pruned and frozen. */
#include <sandpipercot.h>

#include <stdbool.h>
#include <stdio.h>
#include <stdlib.h>
#include <time.h>

#define DEAD 4096 /* what the store of dead slots holds */
#define LOADED 1000

static struct sandpiper table;
static struct sandpiper_row row;

static void expect(uint32_t wanted, uint32_t status) {
    if (wanted == status) return;
    fprintf(stderr, "cleaning: status %u where %u was wanted\n", status, wanted);
    exit(1);
}

static double now(void) {
    struct timespec time;
    clock_gettime(CLOCK_PROCESS_CPUTIME_ID, &time);
    return time.tv_sec + time.tv_nsec / 1e9;
}

/* The keys from 0 on, ascending or in any order. */
static uint64_t *keys_of(uint64_t rows, bool ascending) {
    uint64_t *keys = malloc(rows * sizeof *keys), seed = 88172645463325252u;
    for (uint64_t at = 0; at < rows; at++) {
        seed ^= seed >> 12, seed ^= seed << 25, seed ^= seed >> 27;
        uint64_t other = ascending ? at : (seed >> 8) % (at + 1);
        keys[at] = keys[other];
        keys[other] = at;
    }
    return keys;
}

static void write_all(const uint64_t *keys, uint64_t count, bool deletes) {
    for (uint64_t at = 0; at < count; at++) {
        if (at % LOADED == 0) expect(SANDPIPER_DONE, sandpiper_begin(&table, 0));
        row.key = keys[at];
        expect(SANDPIPER_DONE, deletes ? sandpiper_delete(&table, 0, keys[at]) : sandpiper_insert(&table, 0, &row));
        if (at % LOADED == LOADED - 1 || at + 1 == count) expect(SANDPIPER_COMMITTED, sandpiper_commit(&table, 0));
    }
}

/* The seconds of the steps of each kind. */
static void vacuum(double seconds[4]) {
    struct sandpiper_piece piece;
    uint32_t kind = SANDPIPER_VISITED_PAGE, status = SANDPIPER_WORKED;
    double from = now();
    expect(SANDPIPER_DONE, sandpiper_vacuum_begin(&table, true));
    while (status == SANDPIPER_WORKED) {
        status = sandpiper_vacuum_step(&table, &piece);
        if (piece.kind == kind) continue;
        double to = now();
        seconds[kind] += to - from, from = to, kind = piece.kind;
    }
    expect(SANDPIPER_ENDED, status);
}

static void clean(uint64_t rows, bool ascending) {
    const struct sandpiper_settings settings = {65536, 2144483648u, 0, 3, DEAD, {false, false, false, false}};
    uint64_t *keys = keys_of(rows, ascending);
    double seconds[4] = {0};
    expect(SANDPIPER_DONE, sandpiper_open(&settings, &table));
    write_all(keys, rows, false);
    write_all(keys, DEAD, true);
    vacuum(seconds);
    printf("| %s | %lu | %.1f | %.1f |\n", ascending ? "ascending" : "random", (unsigned long)rows,
        rows / seconds[SANDPIPER_REMOVED_ENTRIES] / 1e6, rows / seconds[SANDPIPER_VISITED_PAGE] / 1e6);
    fflush(stdout);
    expect(SANDPIPER_DONE, sandpiper_close(&table));
    free(keys);
}

int main(void) {
    puts("| keys loaded | rows | entries swept, millions a second | slots pruned and frozen, millions a second |");
    puts("|---|---:|---:|---:|");
    for (int ascending = 1; ascending >= 0; ascending--)
        for (uint64_t rows = 125000; rows <= 1000000; rows *= 2) clean(rows, ascending);
    return 0;
}
