/* How much memory rows and pages take: memory LENGTH [ROWS [KEYS [VALUES [MORE]]]]. It inserts rows with bodies of LENGTH bytes, ROWS of
 * them or as many as fit on 65,536 pages, and prints how many there were, and how much the resident memory grew. KEYS is `ascending` or
 * `random`. With VALUES, which is that too, there is an index by a column, whose values are so many different numbers in that order, each
 * with MORE added. Without MORE a row comes last whose value has more than 32 bits, and it prints how long that insert took. */
#include <sandpipercot.h>
#include <stdint.h>
#include <stdio.h>
#include <stdlib.h>
#include <string.h>
#include <time.h>
#include <unistd.h>

/* resident bytes of this process */
static double resident(void) {
    unsigned long all = 0, pages = 0;
    FILE *file = fopen("/proc/self/statm", "r");
    if (!file || fscanf(file, "%lu %lu", &all, &pages) != 2) exit(3);
    fclose(file);
    return (double)pages * (double)sysconf(_SC_PAGESIZE);
}

/* the numbers below `count`, in ascending order or in another that is the same each time; nothing where they are as they come */
static uint32_t *numbers(const char *order, uint64_t count) {
    if (!strcmp(order, "ascending")) return NULL;
    if (strcmp(order, "random") || count > UINT32_MAX) exit(2);
    uint32_t *all = malloc(count * sizeof *all);
    if (!all) exit(3);
    for (uint64_t at = 0; at < count; at++) all[at] = (uint32_t)at;
    uint64_t state = 1;
    for (uint64_t at = count; at > 1; at--) {
        state = state * 6364136223846793005u + 1442695040888963407u;
        uint64_t other = (state >> 33) % at;
        uint32_t kept = all[at - 1];
        all[at - 1] = all[other];
        all[other] = kept;
    }
    return all;
}

static double seconds(void) {
    struct timespec now;
    if (clock_gettime(CLOCK_MONOTONIC, &now)) exit(3);
    return (double)now.tv_sec + (double)now.tv_nsec / 1e9;
}

/* inserts a row with a key and a value that were not there, of more than 32 bits */
static void insert_wide(struct sandpiper *table, struct sandpiper_row *row, uint64_t key, double before) {
    row->key = key;
    row->cols[0] = INT64_MAX;
    double began = seconds();
    if (sandpiper_insert(table, 0, row) != SANDPIPER_DONE) exit(3);
    double took = seconds() - began;
    printf("the first value of more than 32 bits: %.3f s, and then %.1f MiB\n", took, (resident() - before) / 1048576);
}

int main(int count, char **words) {
    if (count < 2 || count > 6) return 2;
    uint64_t most = count > 2 ? strtoull(words[2], NULL, 10) : UINT64_MAX;
    uint32_t *keys = numbers(count > 3 ? words[3] : "ascending", most);
    uint32_t *values = numbers(count > 4 ? words[4] : "ascending", most);
    int64_t more = count > 5 ? strtoll(words[5], NULL, 10) : 0;
    struct sandpiper table = {0};
    struct sandpiper_settings settings = SANDPIPER_WIDEST;
    struct sandpiper_row row = {.length = (uint16_t)atoi(words[1])};
    settings.indexed[0] = count > 4;
    uint64_t rows = 0;
    double before = resident();
    if (sandpiper_open(&settings, &table) != SANDPIPER_DONE) return 3;
    sandpiper_begin(&table, 0);
    for (; rows < most; rows++) {
        row.key = keys ? keys[rows] : rows;
        row.cols[0] = more + (values ? values[rows] : (int64_t)rows);
        uint32_t status = sandpiper_insert(&table, 0, &row);
        if (status == SANDPIPER_NO_ROOM) break;
        if (status != SANDPIPER_DONE) return 3;
    }
    double grown = resident() - before;
    printf("%llu rows of %u bytes: %.1f MiB, %.0f bytes a row\n", (unsigned long long)rows, row.length, grown / 1048576, grown / (double)rows);
    if (count == 5) insert_wide(&table, &row, rows, before);
    return sandpiper_commit(&table, 0) != SANDPIPER_COMMITTED || sandpiper_close(&table) != SANDPIPER_DONE;
}
