/* Refuses the first, the second, .. piece of memory that the making of an index asks for: the call says so, the table is byte for byte
 * as it was, and repeated with memory the call makes the index. Linked with -Wl,--wrap=malloc,--wrap=realloc.
 *
 * making [ROWS] does so on small tables and on one of 3,000 rows, loaded anew after each piece, and on one of ROWS, 20,000 where none are
 * said, on which all pieces are refused before the call is repeated. */
#include "checks.h"
#include "refusing.h"

#define COLUMN 1
#define MADE (COLUMN + 1) /* the number of its index */
#define ROWS_AT_A_TIME 64

enum { WRITER, SCANNING, BY_STATEMENT, BY_SNAPSHOT };

/* What a table shows: what it is like, its pages and all their bytes, and its rows in the order of both indexes. */
struct shown {
    struct sandpiper_state state;
    uint64_t rows[2];
    uint8_t *bytes;
    struct sandpiper_page *heads;
};

static struct sandpiper t;
static struct sandpiper_row *row;

static void begin(uint8_t session) { CHECK(sandpiper_begin(&t, session) == SANDPIPER_DONE); }

static void commit(uint8_t session) { CHECK(sandpiper_commit(&t, session) == SANDPIPER_COMMITTED); }

/* The row of a key after so many changes; many keys have one value. */
static const struct sandpiper_row *row_of(uint64_t key, uint64_t rows, int64_t changes) {
    set_row(row, key, (int64_t)key, "sixteen bytes ..");
    row->cols[COLUMN] = (int64_t)(key * 7919 % (rows / 3 + 1)) - 100 * changes;
    return row;
}

/* The row of a key after the first change, or after the third too (the second is taken back), if it has one. Each deletes one key in
 * seven, and updates one in five of the others. */
static const struct sandpiper_row *expected(uint64_t key, uint64_t rows, bool third) {
    if (key >= rows || key % 7 == 0 || (third && key % 7 == 3)) return NULL;
    return row_of(key, rows, third && key % 5 == 3 ? 3 : key % 5 == 0);
}

/* How many keys have one. */
static uint64_t count_expected(uint64_t rows, bool third) {
    uint64_t count = 0;
    for (uint64_t key = 0; key < rows; key++) count += expected(key, rows, third) != NULL;
    return count;
}

/* A row that was read is the one that its key is to have. */
static void check_row(const struct sandpiper_row *found, uint64_t rows, bool third) {
    const struct sandpiper_row *wanted = expected(found->key, rows, third);
    CHECK(wanted && memcmp(found->cols, wanted->cols, sizeof found->cols) == 0);
    CHECK(found->length == wanted->length && memcmp(found->body, wanted->body, found->length) == 0);
}

/* Updates and deletes some of the keys, where they have a row, and commits that or takes it back. */
static void change(uint64_t rows, uint64_t first, int64_t changes, bool commits) {
    begin(WRITER);
    for (uint64_t key = first; key < rows; key++) {
        uint32_t status = SANDPIPER_DONE;
        if (key % 5 == first) status = sandpiper_update(&t, WRITER, row_of(key, rows, changes));
        if (key % 7 == first) status = sandpiper_delete(&t, WRITER, key);
        CHECK(status == SANDPIPER_DONE || status == SANDPIPER_NOT_THERE);
    }
    if (commits)
        commit(WRITER);
    else
        CHECK(sandpiper_abort(&t, WRITER) == SANDPIPER_ROLLED_BACK);
}

/* A table with chains, redirects, dead slots, and versions of who was aborted, beside sessions of both kinds and a cursor. */
static void load(uint64_t rows) {
    const struct sandpiper_settings settings = {65536, 2144483648u, 0, 3, 64, {true, false, false, false}};
    CHECK(sandpiper_open(&settings, &t) == SANDPIPER_DONE);
    begin(WRITER);
    for (uint64_t key = 0; key < rows; key++) CHECK(sandpiper_insert(&t, WRITER, row_of(key, rows, 0)) == SANDPIPER_DONE);
    commit(WRITER);
    change(rows, 0, 1, true);
    for (uint32_t page = 0; page * 200 < rows; page++) CHECK(sandpiper_prune(&t, page) == SANDPIPER_DONE);
    change(rows, 2, 2, false);
    begin(SCANNING);
    begin(BY_SNAPSHOT);
    change(rows, 3, 3, true);
    CHECK(sandpiper_begin_read_committed(&t, BY_STATEMENT) == SANDPIPER_DONE);
    CHECK(sandpiper_open_heap(&t, SCANNING) == SANDPIPER_DONE);
}

/* Goes along an index of a table of so many keys. Its rows have to ascend by value and key, and to be those that are committed; a get has
 * to find the same. Answers how many there are. */
static uint64_t scan(uint64_t keys, uint8_t index) {
    static struct sandpiper_row rows[ROWS_AT_A_TIME], found;
    size_t count;
    uint64_t seen = 0, key = 0;
    int64_t value = INT64_MIN;
    CHECK(sandpiper_open_index(&t, BY_STATEMENT, index, INT64_MIN, INT64_MAX) == SANDPIPER_DONE);
    while (sandpiper_next(&t, BY_STATEMENT, rows, ROWS_AT_A_TIME, &count) == SANDPIPER_ROWS)
        for (size_t i = 0; i < count; i++, seen++) {
            int64_t next = index == 0 ? (int64_t)rows[i].key : rows[i].cols[index - 1];
            CHECK(seen == 0 || value < next || (value == next && key < rows[i].key));
            value = next, key = rows[i].key;
            CHECK(sandpiper_get(&t, BY_STATEMENT, key, &found) == SANDPIPER_FOUND && found.key == key);
            check_row(rows + i, keys, true), check_row(&found, keys, true);
        }
    CHECK(sandpiper_close_cursor(&t, BY_STATEMENT) == SANDPIPER_DONE && seen == count_expected(keys, true));
    return seen;
}

/* The scans come first, since what they read leaves hints. */
static struct shown show(uint64_t rows) {
    struct shown now = {.rows = {scan(rows, 0), scan(rows, 1)}};
    CHECK(sandpiper_state_of(&t, &now.state) == SANDPIPER_DONE);
    now.bytes = malloc(now.state.pages * (size_t)SANDPIPER_PAGE_BYTES + 1);
    now.heads = calloc(now.state.pages + 1, sizeof *now.heads);
    CHECK(now.bytes && now.heads);
    for (uint32_t page = 0; page < now.state.pages; page++) {
        uint8_t *bytes = now.bytes + page * (size_t)SANDPIPER_PAGE_BYTES;
        CHECK(sandpiper_page_bytes(&t, page, bytes, SANDPIPER_PAGE_BYTES) == SANDPIPER_FOUND);
        CHECK(sandpiper_page_at(&t, page, now.heads + page) == SANDPIPER_FOUND);
    }
    return now;
}

static void forget(struct shown *shown) {
    free(shown->bytes);
    free(shown->heads);
}

/* The table shows what it did, and has no index by the column. */
static void check_unchanged(const struct shown *before, uint64_t rows) {
    struct shown now = show(rows);
    const struct sandpiper_state *a = &before->state, *b = &now.state;
    CHECK(a->next_id == b->next_id && a->oldest_id == b->oldest_id && a->ids_left == b->ids_left && a->pages == b->pages);
    CHECK(a->open_sessions == b->open_sessions && a->vacuum == b->vacuum && !b->has_index[MADE]);
    CHECK(memcmp(a->entries, b->entries, sizeof a->entries) == 0 && memcmp(a->has_index, b->has_index, sizeof a->has_index) == 0);
    CHECK(before->rows[0] == now.rows[0] && before->rows[1] == now.rows[1]);
    CHECK(memcmp(before->bytes, now.bytes, a->pages * (size_t)SANDPIPER_PAGE_BYTES) == 0);
    for (uint32_t page = 0; page < a->pages; page++) {
        const struct sandpiper_page *x = before->heads + page, *y = now.heads + page;
        CHECK(x->change == y->change && x->bits == y->bits && x->slots == y->slots);
    }
    CHECK(sandpiper_open_index(&t, BY_STATEMENT, MADE, 0, 0) == SANDPIPER_NO_SUCH_INDEX);
    CHECK(sandpiper_open_index(&t, BY_SNAPSHOT, MADE, 0, 0) == SANDPIPER_NO_SUCH_INDEX);
    forget(&now);
}

/* The index has an entry for each row and no other, and who was open by snapshot may not use it. */
static void check_made(const struct shown *before, uint64_t rows) {
    struct sandpiper_state state;
    CHECK(sandpiper_state_of(&t, &state) == SANDPIPER_DONE && state.has_index[MADE]);
    CHECK(scan(rows, MADE) == before->rows[0] && state.entries[MADE] == before->rows[0]);
    CHECK(state.pages == before->state.pages && state.next_id == before->state.next_id);
    CHECK(sandpiper_open_index(&t, BY_SNAPSHOT, MADE, 0, 0) == SANDPIPER_INDEX_TOO_NEW);
}

/* The cursor that was open meanwhile hands out each row that was committed before its session began, as a get by a like session finds it,
 * and the table is closed. */
static void close_table(uint64_t rows) {
    static struct sandpiper_row found;
    size_t count;
    uint64_t seen = 0, here = 0;
    for (uint64_t key = 0; key < rows; key++) {
        bool is_here = sandpiper_get(&t, BY_SNAPSHOT, key, &found) == SANDPIPER_FOUND;
        here += is_here;
        if (is_here) check_row(&found, rows, false);
    }
    for (; sandpiper_next(&t, SCANNING, &found, 1, &count) == SANDPIPER_ROWS; seen += count) check_row(&found, rows, false);
    CHECK(seen == here && seen == count_expected(rows, false) && sandpiper_close(&t) == SANDPIPER_DONE);
}

/* What the making answers where the piece of this number is refused, or none where it is below 0. */
static uint32_t make(long piece) {
    asked = 0, refused_piece = piece, counts = true;
    uint32_t status = sandpiper_create_index(&t, COLUMN);
    counts = false;
    return status;
}

/* Refuses each piece in turn, and says how many there are. */
static void refuse_each(uint64_t rows, bool anew) {
    load(rows);
    struct shown before = show(rows);
    long piece = 0;
    for (; make(piece) == SANDPIPER_NO_MEMORY; piece++) {
        CHECK(asked == piece + 1);
        check_unchanged(&before, rows);
        if (!anew) continue;
        CHECK(make(-1) == SANDPIPER_DONE);
        check_made(&before, rows);
        close_table(rows);
        forget(&before);
        load(rows);
        before = show(rows);
    }
    CHECK(asked <= piece && (piece > 0) == (before.rows[0] > 0));
    check_made(&before, rows);
    CHECK(make(0) == SANDPIPER_DONE && asked == 0);
    close_table(rows);
    printf("an index of %lu rows is made of %ld pieces of memory, each refused once\n", (unsigned long)before.rows[0], piece);
    forget(&before);
}

int main(int argc, char **argv) {
    const uint64_t small[] = {0, 1, 2, 100, 3000};
    row = new_place();
    for (size_t at = 0; at < sizeof small / sizeof *small; at++) refuse_each(small[at], true);
    refuse_each(argc > 1 ? strtoull(argv[1], NULL, 10) : 20000, false);
    free(row);
    return 0;
}
