/* Refuses the first, the second, .. piece of memory that the library asks for: the call says so, has changed nothing and is done when
 * it is repeated, and at the end the table is as it would have been. Linked with -Wl,--wrap=malloc,--wrap=realloc. */
#include "checks.h"
#include "refusing.h"

#define KEYS 200
#define READERS 12

static struct sandpiper t;
static struct sandpiper_row *row, *place;
static int times_refused;

/* What the call answers, which is repeated where memory was refused. */
#define AGAIN(status, call)                                                                                                                \
    do {                                                                                                                                   \
        (status) = (call);                                                                                                                 \
        if ((status) == SANDPIPER_NO_MEMORY) {                                                                                             \
            times_refused++;                                                                                                               \
            (status) = (call);                                                                                                             \
        }                                                                                                                                  \
    } while (0)

#define DOES(call)                                                                                                                         \
    do {                                                                                                                                   \
        uint32_t status;                                                                                                                   \
        AGAIN(status, call);                                                                                                               \
        CHECK(status == SANDPIPER_DONE);                                                                                                   \
    } while (0)

/* The row that a key is to have: its body is four times as long as the key. */
static const struct sandpiper_row *row_of(uint64_t key, int64_t column) {
    set_row(row, key, column, "");
    row->length = (uint16_t)(key * 4);
    memset(row->body, (int)key, row->length);
    return row;
}

/* A write in each of many sessions that are open at once, so that a snapshot lists more ids than it holds without memory. */
static void write_in_many_sessions(void) {
    for (uint8_t s = 10; s < 10 + READERS; s++) {
        DOES(sandpiper_begin(&t, s));
        DOES(sandpiper_insert(&t, s, row_of(KEYS + s, s)));
    }
    DOES(sandpiper_begin(&t, 30));
    for (uint8_t s = 10; s < 10 + READERS; s++) CHECK(sandpiper_commit(&t, s) == SANDPIPER_COMMITTED);
    CHECK(sandpiper_get(&t, 30, KEYS + 10, place) == SANDPIPER_NO_ROW);
    CHECK(sandpiper_abort(&t, 30) == SANDPIPER_ROLLED_BACK);
}

/* Every third key gets another row, and every seventh none, each in a savepoint of its own. */
static void change_in_savepoints(void) {
    DOES(sandpiper_begin(&t, 1));
    for (uint64_t key = 0; key < KEYS; key++) {
        if (key % 21 == 0) DOES(sandpiper_savepoint(&t, 1));
        if (key % 7 == 0)
            DOES(sandpiper_delete(&t, 1, key));
        else if (key % 3 == 0)
            DOES(sandpiper_update(&t, 1, row_of(key, 1000 + (int64_t)key)));
    }
    CHECK(sandpiper_commit(&t, 1) == SANDPIPER_COMMITTED);
}

/* Each key has the row that it is to have, by the index of this number. */
static void check_rows(uint8_t index) {
    static struct sandpiper_row rows[16];
    size_t count, all = 0;
    uint32_t status;
    DOES(sandpiper_begin(&t, 2));
    CHECK(sandpiper_open_index(&t, 2, index, INT64_MIN, INT64_MAX) == SANDPIPER_DONE);
    for (; (status = sandpiper_next(&t, 2, rows, 16, &count)) == SANDPIPER_ROWS; all += count)
        for (size_t i = 0; i < count; i++) {
            const struct sandpiper_row *place = rows + i;
            uint64_t key = place->key;
            int64_t column = key >= KEYS ? (int64_t)key - KEYS : key % 3 == 0 ? 1000 + (int64_t)key : (int64_t)key;
            CHECK((key % 7 != 0 || key >= KEYS) && place->cols[0] == column && place->length == key * 4);
            CHECK(place->length == 0 || (place->body[0] == (uint8_t)key && place->body[place->length - 1] == (uint8_t)key));
        }
    CHECK(status == SANDPIPER_END && all == KEYS - (KEYS + 6) / 7 + READERS);
    CHECK(sandpiper_commit(&t, 2) == SANDPIPER_COMMITTED);
}

/* The calls that ask for no memory, as the header says. */
static void ask_for_none(void) {
    size_t count;
    struct sandpiper_slot slot;
    struct sandpiper_piece piece;
    DOES(sandpiper_begin(&t, 3));
    DOES(sandpiper_savepoint(&t, 3));
    DOES(sandpiper_begin(&t, 4));
    long before = asked;
    CHECK(sandpiper_get(&t, 3, 1, place) == SANDPIPER_FOUND && sandpiper_get(&t, 3, KEYS + 1, place) == SANDPIPER_NO_ROW);
    CHECK(sandpiper_rollback_to(&t, 3) == SANDPIPER_DONE && sandpiper_release(&t, 3) == SANDPIPER_DONE);
    CHECK(sandpiper_open_heap(&t, 3) == SANDPIPER_DONE && sandpiper_next(&t, 3, place, 1, &count) == SANDPIPER_ROWS);
    CHECK(sandpiper_close_cursor(&t, 3) == SANDPIPER_DONE);
    CHECK(sandpiper_open_by_key(&t, 3, 1, 2) == SANDPIPER_DONE && sandpiper_next(&t, 3, place, 1, &count) == SANDPIPER_ROWS);
    CHECK(sandpiper_close_cursor(&t, 3) == SANDPIPER_DONE && sandpiper_open_index(&t, 3, 1, 1, 2) == SANDPIPER_DONE);
    CHECK(sandpiper_commit(&t, 3) == SANDPIPER_COMMITTED && sandpiper_abort(&t, 4) == SANDPIPER_ROLLED_BACK);
    CHECK(sandpiper_prune(&t, 0) == SANDPIPER_DONE && sandpiper_slot_at(&t, 0, 1, &slot) == SANDPIPER_FOUND);
    CHECK(sandpiper_vacuum_begin(&t, false) == SANDPIPER_DONE && sandpiper_vacuum_cancel(&t) == SANDPIPER_DONE);
    CHECK(sandpiper_vacuum_begin(&t, true) == SANDPIPER_DONE);
    while (sandpiper_vacuum_step(&t, &piece) == SANDPIPER_WORKED) continue;
    CHECK(piece.kind == SANDPIPER_NO_PIECE);
    CHECK(asked == before);
}

/* Does all this, and says how often memory was refused. */
static int run(void) {
    const struct sandpiper_settings settings = {64, 2144483648u, 0, 3, 64, {true, false, false, false}};
    times_refused = 0;
    asked = 0;
    counts = true;
    DOES(sandpiper_open(&settings, &t));
    for (uint64_t key = 0; key < KEYS; key++) {
        DOES(sandpiper_begin(&t, 1));
        DOES(sandpiper_insert(&t, 1, row_of(key, (int64_t)key)));
        CHECK(sandpiper_commit(&t, 1) == SANDPIPER_COMMITTED);
    }
    write_in_many_sessions();
    change_in_savepoints();
    check_rows(1);
    DOES(sandpiper_create_index(&t, 1));
    check_rows(2);
    ask_for_none();
    check_rows(1);
    CHECK(sandpiper_close(&t) == SANDPIPER_DONE);
    counts = false;
    return times_refused;
}

int main(void) {
    row = new_place();
    place = new_place();
    refused_piece = -1;
    CHECK(run() == 0);
    long pieces = asked, told = 0;
    for (refused_piece = 0; refused_piece < pieces; refused_piece++) {
        int refused = run();
        CHECK(refused <= 1);
        told += refused;
    }
    free(row);
    free(place);
    printf("%ld pieces of memory, each refused once: %ld times a call said so, and %ld did without\n", pieces, told, pieces - told);
    return 0;
}
