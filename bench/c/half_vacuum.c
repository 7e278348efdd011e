/* Times a vacuum after every second row was deleted: half_vacuum ROWS [DEAD_LIMIT], with the widest settings but for that. */
#include <sandpipercot.h>

#include <stdio.h>
#include <stdlib.h>
#include <time.h>

#define LOADED 1000

static void expect(uint32_t wanted, uint32_t status) {
    if (wanted == status) return;
    fprintf(stderr, "half_vacuum: %s\n", sandpiper_words(status));
    exit(1);
}

int main(int argc, char **argv) {
    static struct sandpiper table;
    static struct sandpiper_row row;
    struct sandpiper_settings settings = SANDPIPER_WIDEST;
    struct sandpiper_piece piece;
    uint64_t rows = argc > 1 ? strtoull(argv[1], NULL, 10) : 1000000;
    uint32_t status;
    if (argc > 2) settings.dead_limit = (uint32_t)atoi(argv[2]);
    expect(SANDPIPER_DONE, sandpiper_open(&settings, &table));
    for (uint64_t at = 0; at < 2 * rows; at++) {
        if (at % LOADED == 0) expect(SANDPIPER_DONE, sandpiper_begin(&table, 0));
        row.key = at;
        if (at < rows) expect(SANDPIPER_DONE, sandpiper_insert(&table, 0, &row));
        else if (at % 2) expect(SANDPIPER_DONE, sandpiper_delete(&table, 0, at - rows));
        if (at % LOADED == LOADED - 1 || at + 1 == 2 * rows) expect(SANDPIPER_COMMITTED, sandpiper_commit(&table, 0));
    }
    clock_t before = clock();
    expect(SANDPIPER_DONE, sandpiper_vacuum_begin(&table, false));
    while ((status = sandpiper_vacuum_step(&table, &piece)) == SANDPIPER_WORKED) continue;
    expect(SANDPIPER_ENDED, status);
    printf("%.2f\n", (double)(clock() - before) / CLOCKS_PER_SEC);
    expect(SANDPIPER_DONE, sandpiper_close(&table));
    return 0;
}
