/* Does steps of one kind, for step_costs.sh, which counts what `measured` takes: one of KINDS, below. */
#include <sandpipercot.h>

#include <stdio.h>
#include <string.h>

#define ROWS 8800
#define ON_A_PAGE 88 /* rows with a body of 16 bytes take 92 of a page's 8168 bytes */

static struct sandpiper table;
static struct sandpiper_row row, rows[100];
static struct sandpiper_piece piece;
static int failed;

static void expect(uint32_t wanted, uint32_t status) {
    failed |= wanted != status;
}

static void begin(uint8_t session) {
    expect(SANDPIPER_DONE, sandpiper_begin(&table, session));
}

static void commit(uint8_t session) {
    expect(SANDPIPER_COMMITTED, sandpiper_commit(&table, session));
}

/* A table of these settings, and rows of these keys, from 0 on, committed. */
static void load_in(const struct sandpiper_settings *settings, uint64_t rows) {
    expect(SANDPIPER_DONE, sandpiper_open(settings, &table));
    begin(0);
    row.length = 16;
    for (row.key = 0; row.key < rows; row.key++) expect(SANDPIPER_DONE, sandpiper_insert(&table, 0, &row));
    commit(0);
}

static void load(uint64_t rows) {
    const struct sandpiper_settings settings = SANDPIPER_WIDEST;
    load_in(&settings, rows);
}

static __attribute__((noinline)) uint32_t measured(char kind, uint64_t key) {
    size_t count;
    row.key = key;
    switch (kind) {
    case 'g': return sandpiper_get(&table, 0, key, &row);
    case 'i': return sandpiper_insert(&table, 0, &row);
    case 'u': return sandpiper_update(&table, 0, &row);
    case 'd': return sandpiper_delete(&table, 0, key);
    case 'n': return sandpiper_next(&table, 0, rows, 100, &count);
    case 'b': return sandpiper_begin(&table, 0);
    case 'c': return sandpiper_commit(&table, 0);
    case 'v': return sandpiper_vacuum_step(&table, &piece);
    case 'm': return sandpiper_create_index(&table, (uint8_t)key);
    default: return sandpiper_prune(&table, 0);
    }
}

static void update(uint64_t key) {
    begin(0);
    row.key = key;
    expect(SANDPIPER_DONE, sandpiper_update(&table, 0, &row));
    commit(0);
}

static void delete(uint64_t key) {
    begin(0);
    expect(SANDPIPER_DONE, sandpiper_delete(&table, 0, key));
    commit(0);
}

static void measured_update(uint64_t key) {
    begin(0);
    expect(SANDPIPER_DONE, measured('u', key));
    commit(0);
}

static long gets(void) {
    uint64_t seed = 88172645463325252u;
    load(1000);
    begin(0);
    for (long count = 0; count < 10000; count++) {
        seed ^= seed >> 12, seed ^= seed << 25, seed ^= seed >> 27;
        expect(SANDPIPER_FOUND, measured('g', (seed >> 8) % 1000));
    }
    return 10000;
}

static long inserts(void) {
    load(ROWS);
    begin(0);
    for (uint64_t key = ROWS; key < 2 * ROWS; key++) expect(SANDPIPER_DONE, measured('i', key));
    return ROWS;
}

/* Updates of the first row of pages that have room for it. */
static long hot_updates(void) {
    load(ROWS);
    for (uint64_t key = 1; key < ROWS; key += ON_A_PAGE) delete(key);
    for (uint64_t key = 0; key < ROWS; key += ON_A_PAGE) expect(SANDPIPER_DONE, sandpiper_prune(&table, key / ON_A_PAGE));
    for (uint64_t key = 0; key < ROWS; key += ON_A_PAGE) measured_update(key);
    return ROWS / ON_A_PAGE;
}

static long deletes(void) {
    load(ROWS);
    begin(0);
    for (uint64_t key = 0; key < ROWS; key++) expect(SANDPIPER_DONE, measured('d', key));
    return ROWS;
}

/* Calls that hand out 100 rows each, in the order of keys. */
static long scans(void) {
    load(ROWS);
    begin(0);
    expect(SANDPIPER_DONE, sandpiper_open_by_key(&table, 0, 0, UINT64_MAX));
    for (long count = 0; count < ROWS / 100; count++) expect(SANDPIPER_ROWS, measured('n', 0));
    return ROWS / 100;
}

/* Updates on full pages, while an open session still sees what they replace. The first on each page is not counted. */
static long full_updates(void) {
    load(ROWS);
    begin(1);
    for (uint64_t key = 0; key < ROWS; key += ON_A_PAGE) update(key);
    for (uint64_t key = 0; key < ROWS; key++)
        if (key % ON_A_PAGE > 0) measured_update(key);
    return ROWS - ROWS / ON_A_PAGE;
}

/* Updates on full pages with one dead version each. */
static long pruning_updates(void) {
    load(ROWS);
    for (uint64_t key = 0; key < ROWS; key += ON_A_PAGE) {
        update(key);
        measured_update(key + ON_A_PAGE / 2);
    }
    return ROWS / ON_A_PAGE;
}

/* Updates of rows that were updated before: each prunes one dead version, to which a redirect leads. */
static long repeated_updates(void) {
    load(ROWS);
    for (int round = 0; round < 3; round++)
        for (uint64_t key = 0; key < ROWS; key++) update(key);
    for (uint64_t key = 0; key < ROWS; key++) measured_update(key);
    return ROWS;
}

/* Beginnings and commits in turn, with nothing between. */
static long empty_transactions(void) {
    load(1000);
    for (long count = 0; count < 10000; count++) {
        expect(SANDPIPER_DONE, measured('b', 0));
        expect(SANDPIPER_COMMITTED, measured('c', 0));
    }
    return 10000;
}

/* Prunes a page whose one slot holds a version that is not dead. */
static long prunes(void) {
    load(1);
    for (long count = 0; count < 10000; count++) expect(SANDPIPER_DONE, measured('p', 0));
    return 10000;
}

/* Prunes pages whose one slot holds a dead version. */
static long pruned(void) {
    for (long count = 0; count < 1000; count++) {
        load(1);
        delete(0);
        expect(SANDPIPER_DONE, measured('p', 0));
        expect(SANDPIPER_DONE, sandpiper_close(&table));
    }
    return 1000;
}

/* A vacuum's visits of all pages but the last. */
static long visits(void) {
    expect(SANDPIPER_DONE, sandpiper_vacuum_begin(&table, false));
    for (long page = 0; page < ROWS / ON_A_PAGE - 1; page++) {
        expect(SANDPIPER_WORKED, measured('v', 0));
        failed |= piece.kind != 1;
    }
    return ROWS / ON_A_PAGE - 1;
}

/* All versions are seen by everybody, and too young to be frozen. */
static long young_visits(void) {
    const struct sandpiper_settings settings = {65536, 2144483648u, 1000000000, 3, 64, {false, false, false, false}};
    load_in(&settings, ROWS);
    return visits();
}

/* Each visit freezes all versions of its page. */
static long freezing_visits(void) {
    load(ROWS);
    return visits();
}

/* An open session still sees a version of each page that was replaced. */
static long held_visits(void) {
    load(ROWS);
    begin(1);
    for (uint64_t key = 0; key < ROWS; key += ON_A_PAGE) update(key);
    return visits();
}

/* Every tenth row was deleted. */
static long cleaning_visits(void) {
    const struct sandpiper_settings settings = {65536, 2144483648u, 0, 3, 4096, {false, false, false, false}};
    load_in(&settings, ROWS);
    for (uint64_t key = 0; key < ROWS; key += 10) delete(key);
    return visits();
}

/* The making of the index of a column, of 1,000 rows whose values are in no order. */
static long makings(void) {
    const struct sandpiper_settings settings = SANDPIPER_WIDEST;
    expect(SANDPIPER_DONE, sandpiper_open(&settings, &table));
    begin(0);
    for (row.key = 0; row.key < 1000; row.key++) {
        for (int64_t column = 0; column < 4; column++) row.cols[column] = (int64_t)row.key * 7919 % (997 + column);
        expect(SANDPIPER_DONE, sandpiper_insert(&table, 0, &row));
    }
    commit(0);
    for (uint64_t column = 0; column < 4; column++) expect(SANDPIPER_DONE, measured('m', column));
    return 4;
}

static const struct {
    const char *name;
    long (*run)(void);
} KINDS[] = {{"get", gets},           {"empty", empty_transactions}, {"insert", inserts},        {"hot", hot_updates},
             {"delete", deletes},     {"scan", scans},
             {"full", full_updates},  {"prunes", pruning_updates}, {"again", repeated_updates}, {"prune", prunes},      {"pruned", pruned},
             {"young", young_visits}, {"freezing", freezing_visits}, {"held", held_visits},    {"cleaning", cleaning_visits},
             {"making", makings}};

/* step_costs KIND prints how many steps were measured. */
int main(int argc, char **argv) {
    for (size_t kind = 0; argc > 1 && kind < sizeof KINDS / sizeof *KINDS; kind++)
        if (!strcmp(argv[1], KINDS[kind].name)) printf("%ld\n", KINDS[kind].run());
    return failed;
}
