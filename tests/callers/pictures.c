/* Pictures: where they are written to, and why there is none. It prints the picture of docs/horizon.svg, of the steps of
 * examples/horizon.script, with which test_callers.sh compares it. Linked with -Wl,--wrap=malloc,--wrap=realloc. */
#include "checks.h"
#include "refusing.h"

static struct sandpiper t;
static struct sandpiper_row row;
static const uint32_t twice[] = {0, 0}, last = UINT32_MAX;

static void write_row(uint64_t key, int64_t value, bool is_new) {
    set_row(&row, key, value, "");
    CHECK(sandpiper_begin(&t, 0) == SANDPIPER_DONE);
    CHECK((is_new ? sandpiper_insert(&t, 0, &row) : sandpiper_update(&t, 0, &row)) == SANDPIPER_DONE);
    CHECK(sandpiper_commit(&t, 0) == SANDPIPER_COMMITTED);
}

/* The steps of examples/horizon.script up to its first pruning: key 1 was written by 3, 4 and 5, and session 1 sees the first alone. */
static void open_table(void) {
    const struct sandpiper_settings settings = {4, 1000, 0, 3, 64, {false, false, false, false}};
    CHECK(sandpiper_open(&settings, &t) == SANDPIPER_DONE);
    write_row(1, 5, true);
    CHECK(sandpiper_begin(&t, 1) == SANDPIPER_DONE);
    write_row(1, 6, false);
    write_row(1, 7, false);
    CHECK(sandpiper_prune(&t, 0) == SANDPIPER_DONE);
}

/* The picture of so many pages, in a block of just its length, whose ends a checker of memory watches. */
static char *drawn(const uint32_t *pages, size_t count, size_t *length) {
    char none;
    size_t again = 0;
    CHECK(sandpiper_draw(&t, pages, count, &none, 0, length) == SANDPIPER_NO_PLACE && *length > 0);
    char *text = malloc(*length);
    CHECK(text && sandpiper_draw(&t, pages, count, text, *length, &again) == SANDPIPER_FOUND && again == *length);
    return text;
}

static bool are_all(const char *bytes, size_t length, char byte) {
    for (size_t i = 0; i < length; i++)
        if (bytes[i] != byte) return false;
    return true;
}

/* That of all pages is printed; that of the one page that there is has the same bytes, and a page may be named twice. */
static void pages_are_drawn_as_they_are_named(void) {
    size_t length, of_one, of_two;
    open_table();
    char *text = drawn(&last, 0, &length), *one = drawn(twice, 1, &of_one), *two = drawn(twice, 2, &of_two);
    CHECK(of_one == length && memcmp(text, one, length) == 0 && of_two > length && memcmp(text, two, 4) == 0);
    CHECK(fwrite(text, 1, length, stdout) == length);
    free(text), free(one), free(two);
    CHECK(sandpiper_close(&t) == SANDPIPER_DONE);
}

/* In a buffer that is a byte too small nothing is written, and in one that is larger nothing behind the text. */
static void a_buffer_has_the_whole_or_nothing(void) {
    size_t length, again = 0;
    open_table();
    char *text = drawn(&last, 0, &length), *small = malloc(length - 1), *large = malloc(length + 9);
    memset(small, 7, length - 1), memset(large, 7, length + 9);
    CHECK(sandpiper_draw(&t, &last, 0, small, length - 1, &again) == SANDPIPER_NO_PLACE && again == length);
    CHECK(are_all(small, length - 1, 7));
    CHECK(sandpiper_draw(&t, &last, 0, large, length + 9, &again) == SANDPIPER_FOUND && again == length);
    CHECK(memcmp(text, large, length) == 0 && are_all(large + length, 9, 7));
    free(text), free(small), free(large);
    CHECK(sandpiper_close(&t) == SANDPIPER_DONE);
}

/* A draw that is refused for this, with a length of 0 and nothing written. */
static bool is_refused_as(uint32_t status, const uint32_t *pages, size_t count) {
    static char text[100000];
    size_t length = 77;
    memset(text, 7, sizeof text);
    return sandpiper_draw(&t, pages, count, text, sizeof text, &length) == status && length == 0 && are_all(text, sizeof text, 7);
}

/* Too many pages come before one that is not in use; and a table of more pages than a picture has is drawn by those that are named. */
static void refusals_come_in_order(void) {
    uint32_t pages[SANDPIPER_PICTURE_PAGES + 1] = {0};
    size_t length;
    CHECK(is_refused_as(SANDPIPER_NO_ENGINE, pages, 1) && is_refused_as(SANDPIPER_NO_ENGINE, pages, SANDPIPER_PICTURE_PAGES + 1));
    CHECK(sandpiper_open(&(struct sandpiper_settings)SANDPIPER_WIDEST, &t) == SANDPIPER_DONE);
    CHECK(is_refused_as(SANDPIPER_NO_SUCH_PAGE, pages, 1) && is_refused_as(SANDPIPER_NO_SUCH_PAGE, &last, 1));
    free(drawn(pages, 0, &length));
    /* seven rows of the longest body fit on a page */
    memset(row.body, 'x', row.length = SANDPIPER_BODY);
    CHECK(sandpiper_begin(&t, 0) == SANDPIPER_DONE);
    for (row.key = 0; row.key < 7 * SANDPIPER_PICTURE_PAGES; row.key++) CHECK(sandpiper_insert(&t, 0, &row) == SANDPIPER_DONE);
    free(drawn(pages, 0, &length));
    CHECK(sandpiper_insert(&t, 0, &row) == SANDPIPER_DONE && is_refused_as(SANDPIPER_TOO_MANY_PAGES, pages, 0));
    for (uint32_t i = 0; i <= SANDPIPER_PICTURE_PAGES; i++) pages[i] = i;
    free(drawn(pages, SANDPIPER_PICTURE_PAGES, &length));
    free(drawn(pages + 1, SANDPIPER_PICTURE_PAGES, &length));
    pages[0] = last;
    CHECK(is_refused_as(SANDPIPER_TOO_MANY_PAGES, pages, SANDPIPER_PICTURE_PAGES + 1));
    CHECK(is_refused_as(SANDPIPER_NO_SUCH_PAGE, pages, SANDPIPER_PICTURE_PAGES));
    CHECK(sandpiper_close(&t) == SANDPIPER_DONE);
}

/* Each piece of memory that a picture asks for is refused once: it says so, and is the same when it is asked for again. */
static void refused_memory_leaves_no_trace(void) {
    size_t length, again;
    open_table();
    char *text = drawn(&last, 0, &length), *later;
    counts = true, asked = 0, refused_piece = -1;
    CHECK(sandpiper_draw(&t, &last, 0, text, length, &again) == SANDPIPER_FOUND);
    const long pieces = asked;
    CHECK(pieces > 0);
    for (long piece = 0; piece < pieces; piece++) {
        counts = true, asked = 0, refused_piece = piece;
        CHECK(is_refused_as(SANDPIPER_NO_MEMORY, &last, 0));
        counts = false;
        later = drawn(&last, 0, &again);
        CHECK(again == length && memcmp(text, later, length) == 0);
        free(later);
    }
    free(text);
    CHECK(sandpiper_close(&t) == SANDPIPER_DONE);
}

/* It is no step: a wait goes on, and what the table tells of itself stays. */
static void a_picture_changes_nothing(void) {
    struct sandpiper_session session;
    struct sandpiper_state before, after;
    struct sandpiper_page head, head_after;
    size_t length;
    open_table();
    CHECK(sandpiper_begin(&t, 2) == SANDPIPER_DONE && sandpiper_insert(&t, 2, set_row(&row, 2, 0, "")) == SANDPIPER_DONE);
    CHECK(sandpiper_begin(&t, 3) == SANDPIPER_DONE && sandpiper_insert(&t, 3, &row) == SANDPIPER_BUSY + 2);
    CHECK(sandpiper_state_of(&t, &before) == SANDPIPER_DONE && sandpiper_page_at(&t, 0, &head) == SANDPIPER_FOUND);
    free(drawn(&last, 0, &length));
    CHECK(sandpiper_state_of(&t, &after) == SANDPIPER_DONE && before.next_id == after.next_id && before.ids_left == after.ids_left);
    CHECK(before.pages == after.pages && before.open_sessions == after.open_sessions && before.entries[0] == after.entries[0]);
    CHECK(sandpiper_page_at(&t, 0, &head_after) == SANDPIPER_FOUND && head.change == head_after.change && head.slots == head_after.slots);
    CHECK(sandpiper_session_of(&t, 3, &session) == SANDPIPER_FOUND && session.is_waiting && session.waits_for == 2);
    CHECK(sandpiper_close(&t) == SANDPIPER_DONE);
}

int main(void) {
    pages_are_drawn_as_they_are_named();
    a_buffer_has_the_whole_or_nothing();
    refusals_come_in_order();
    refused_memory_leaves_no_trace();
    a_picture_changes_nothing();
    return 0;
}
