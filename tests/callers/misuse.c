/* What a program may get wrong: each such call gets a status, and nothing is lost. */
#include "checks.h"

static struct sandpiper t;
static struct sandpiper_row *row, *place;
static const struct sandpiper_settings widest = SANDPIPER_WIDEST;

/* Every call on a handle that has no table. */
static void check_closed(void) {
    size_t count = 77;
    struct sandpiper_slot slot = {.kind = 77};
    uint8_t bytes[1] = {77};
    struct sandpiper_piece piece = {.kind = 77};
    struct sandpiper_ticket ticket = {0};
    place->key = 77;
    CHECK(sandpiper_begin(&t, 0) == SANDPIPER_NO_ENGINE && sandpiper_commit(&t, 0) == SANDPIPER_NO_ENGINE);
    CHECK(sandpiper_abort(&t, 0) == SANDPIPER_NO_ENGINE && sandpiper_savepoint(&t, 0) == SANDPIPER_NO_ENGINE);
    CHECK(sandpiper_rollback_to(&t, 0) == SANDPIPER_NO_ENGINE && sandpiper_release(&t, 0) == SANDPIPER_NO_ENGINE);
    CHECK(sandpiper_get(&t, 0, 1, place) == SANDPIPER_NO_ENGINE && place->key == 77);
    CHECK(sandpiper_insert(&t, 0, row) == SANDPIPER_NO_ENGINE && sandpiper_update(&t, 0, row) == SANDPIPER_NO_ENGINE);
    CHECK(sandpiper_delete(&t, 0, 1) == SANDPIPER_NO_ENGINE && sandpiper_open_heap(&t, 0) == SANDPIPER_NO_ENGINE);
    CHECK(sandpiper_open_by_key(&t, 0, 0, 1) == SANDPIPER_NO_ENGINE && sandpiper_open_index(&t, 0, 0, 0, 1) == SANDPIPER_NO_ENGINE);
    CHECK(sandpiper_next(&t, 0, place, 1, &count) == SANDPIPER_NO_ENGINE && count == 0 && place->key == 77);
    CHECK(sandpiper_open_keys(&t, 0, 0, 1) == SANDPIPER_NO_ENGINE && sandpiper_close_cursor(&t, 0) == SANDPIPER_NO_ENGINE);
    CHECK(sandpiper_take_page(&t, 0, 0, &ticket) == SANDPIPER_NO_ENGINE && !ticket.is_taken);
    CHECK(sandpiper_prune(&t, 0) == SANDPIPER_NO_ENGINE && sandpiper_create_index(&t, 0) == SANDPIPER_NO_ENGINE);
    CHECK(sandpiper_vacuum_begin(&t, true) == SANDPIPER_NO_ENGINE && sandpiper_vacuum_cancel(&t) == SANDPIPER_NO_ENGINE);
    CHECK(sandpiper_keep_places(&t, true) == SANDPIPER_NO_ENGINE);
    CHECK(sandpiper_vacuum_step(&t, &piece) == SANDPIPER_NO_ENGINE && piece.kind == 77);
    CHECK(sandpiper_slot_at(&t, 0, 1, &slot) == SANDPIPER_NO_ROW && slot.kind == 77);
    CHECK(sandpiper_page_bytes(&t, 0, bytes, sizeof bytes) == SANDPIPER_NO_ROW && bytes[0] == 77);
    struct sandpiper_action action = {1, SANDPIPER_UNUSE, 0};
    struct sandpiper_state state = {.next_id = 77};
    struct sandpiper_page head = {.slots = 77};
    CHECK(sandpiper_begin_read_committed(&t, 0) == SANDPIPER_NO_ENGINE);
    for (size_t n = 0; n < 2; n++) CHECK(sandpiper_apply_plan(&t, 0, 0, &action, n) == SANDPIPER_NO_ENGINE);
    CHECK(sandpiper_insert_many(&t, 0, row, 1, &count) == SANDPIPER_NO_ENGINE && count == 0);
    CHECK(sandpiper_update_many(&t, 0, row, 1, &count) == SANDPIPER_NO_ENGINE && count == 0);
    CHECK(sandpiper_state_of(&t, &state) == SANDPIPER_NO_ENGINE && state.next_id == 77);
    CHECK(sandpiper_page_at(&t, 0, &head) == SANDPIPER_NO_ROW && head.slots == 77);
    CHECK(sandpiper_close(&t) == SANDPIPER_NO_ENGINE && !t.is_open && !t.held);
}

/* Every call of a session whose number is over 63. */
static void check_session(uint8_t session) {
    const uint32_t no_such_session = SANDPIPER_NO_SUCH_SESSION;
    size_t count = 77;
    struct sandpiper_ticket ticket = {0};
    place->key = 77;
    CHECK(sandpiper_begin(&t, session) == no_such_session && sandpiper_commit(&t, session) == no_such_session);
    CHECK(sandpiper_abort(&t, session) == no_such_session && sandpiper_savepoint(&t, session) == no_such_session);
    CHECK(sandpiper_rollback_to(&t, session) == no_such_session && sandpiper_release(&t, session) == no_such_session);
    CHECK(sandpiper_get(&t, session, 1, place) == no_such_session && place->key == 77);
    CHECK(sandpiper_insert(&t, session, row) == no_such_session && sandpiper_update(&t, session, row) == no_such_session);
    CHECK(sandpiper_delete(&t, session, 1) == no_such_session && sandpiper_open_heap(&t, session) == no_such_session);
    CHECK(sandpiper_open_by_key(&t, session, 0, 1) == no_such_session && sandpiper_open_keys(&t, session, 0, 1) == no_such_session);
    CHECK(sandpiper_open_index(&t, session, 0, 0, 1) == no_such_session);
    CHECK(sandpiper_next(&t, session, place, 1, &count) == no_such_session && count == 0 && place->key == 77);
    CHECK(sandpiper_close_cursor(&t, session) == no_such_session);
    CHECK(sandpiper_take_page(&t, session, 0, &ticket) == no_such_session && !ticket.is_taken);
}

/* Lengths over 1024, of which the body has no such bytes to read. */
static void check_lengths(void) {
    CHECK(sandpiper_begin(&t, 0) == SANDPIPER_DONE);
    set_row(row, 5000, 0, "");
    for (unsigned length = SANDPIPER_BODY + 1; length <= UINT16_MAX; length += 4001) {
        row->length = (uint16_t)length;
        CHECK(sandpiper_insert(&t, 0, row) == SANDPIPER_TOO_LARGE && sandpiper_update(&t, 0, row) == SANDPIPER_TOO_LARGE);
    }
    CHECK(sandpiper_get(&t, 0, 5000, place) == SANDPIPER_NO_ROW);
    CHECK(sandpiper_abort(&t, 0) == SANDPIPER_ROLLED_BACK);
}

static void check_numbers(void) {
    uint8_t few[1] = {77};
    struct sandpiper_slot slot;
    CHECK(sandpiper_begin(&t, 0) == SANDPIPER_DONE);
    CHECK(sandpiper_prune(&t, UINT32_MAX) == SANDPIPER_NO_SUCH_PAGE && sandpiper_slot_at(&t, UINT32_MAX, 1, &slot) == SANDPIPER_NO_ROW);
    struct sandpiper_action none = {1, 3, 1};
    CHECK(sandpiper_apply_plan(&t, UINT32_MAX, UINT64_MAX, &none, 1) == SANDPIPER_NO_SUCH_PAGE);
    CHECK(sandpiper_apply_plan(&t, 0, UINT64_MAX, &none, 1) == SANDPIPER_STALE);
    CHECK(sandpiper_slot_at(&t, 0, 0, &slot) == SANDPIPER_NO_ROW && sandpiper_slot_at(&t, 0, UINT16_MAX, &slot) == SANDPIPER_NO_ROW);
    CHECK(sandpiper_page_bytes(&t, UINT32_MAX, few, sizeof few) == SANDPIPER_NO_ROW && few[0] == 77);
    CHECK(sandpiper_open_index(&t, 0, UINT8_MAX, 0, 1) == SANDPIPER_NO_SUCH_INDEX);
    CHECK(sandpiper_open_by_key(&t, 0, UINT64_MAX, 0) == SANDPIPER_BAD_BOUNDS);
    CHECK(sandpiper_open_keys(&t, 0, UINT64_MAX, 0) == SANDPIPER_BAD_BOUNDS);
    CHECK(sandpiper_abort(&t, 0) == SANDPIPER_ROLLED_BACK);
}

/* How many rows a call hands out at most. */
#define PLACES 300

static uint64_t seed = 88172645463325252u;

static uint32_t below(uint32_t limit) {
    seed ^= seed >> 12, seed ^= seed << 25, seed ^= seed >> 27;
    return (uint32_t)((seed * 2685821657736338717u) >> 32) % limit;
}

/* How many calls a table is asked for by this session, and in vain. */
static uint64_t done, refused;

/* A step's answer is one of the header's, that there is no such session just where there is none, and Busy of another that is open. */
static uint32_t told(uint8_t session, uint32_t status) {
    CHECK(strcmp(sandpiper_words(status), "no status") != 0);
    CHECK((session >= SANDPIPER_SESSIONS) == (status == SANDPIPER_NO_SUCH_SESSION));
    CHECK(status != SANDPIPER_NO_ENGINE && status != SANDPIPER_HAS_ENGINE && status != (uint32_t)SANDPIPER_BUSY + session);
    if (status < SANDPIPER_NOT_OPEN) done++;
    else refused++;
    if (status < SANDPIPER_BUSY) return status;
    struct sandpiper_state state;
    CHECK(sandpiper_state_of(&t, &state) == SANDPIPER_DONE && state.open_sessions >> (status - SANDPIPER_BUSY) & 1);
    return status;
}

/* A write is of a row that fits. A get has the key that was asked for. Of a cursor there are as many rows as is said, and no more. */
static void write_told(uint8_t session, uint32_t status) {
    told(session, status);
    CHECK(row->length <= SANDPIPER_BODY || status >= SANDPIPER_NOT_OPEN);
}

static void get_told(uint8_t session, uint64_t key) {
    place->key = ~key;
    uint32_t status = told(session, sandpiper_get(&t, session, key, place));
    CHECK((status == SANDPIPER_FOUND) == (place->key == key) && (place->key == key || place->key == ~key));
    CHECK(status != SANDPIPER_FOUND || place->length <= SANDPIPER_BODY);
}

static void next_told(uint8_t session, struct sandpiper_row *rows, size_t capacity) {
    size_t count = PLACES + 1;
    uint32_t status = sandpiper_next(&t, session, rows, capacity, &count);
    if (capacity) told(session, status);
    CHECK((status == SANDPIPER_ROWS) == (count > 0) && count <= capacity);
}

/* A plan of up to three actions, most of which do not check, and then a pruning. */
static void apply_at_random(uint32_t page) {
    struct sandpiper_page head = {0};
    struct sandpiper_action actions[3];
    size_t count = below(4);
    for (size_t i = 0; i < count; i++)
        actions[i] = (struct sandpiper_action){(uint16_t)below(300), (uint16_t)below(4), (uint16_t)below(300)};
    uint32_t none = sandpiper_page_at(&t, page, &head) == SANDPIPER_NO_ROW ? SANDPIPER_NO_SUCH_PAGE : SANDPIPER_DONE;
    uint32_t status = sandpiper_apply_plan(&t, page, head.change, actions, count);
    CHECK(none ? status == none : status == SANDPIPER_DONE || (status == SANDPIPER_STALE && count > 0));
    CHECK(sandpiper_prune(&t, page) == none);
}

static void close_ticket(struct sandpiper_ticket *ticket) {
    uint32_t status = ticket->is_taken ? SANDPIPER_DONE : SANDPIPER_NO_TICKET;
    CHECK(sandpiper_close_ticket(ticket) == status && !ticket->is_taken);
}

/* Takes a page for one of eight tickets that live on, or reads one, or closes it. */
static void use_ticket(uint8_t session, uint32_t page, struct sandpiper_row *rows, bool closes_all) {
    static struct sandpiper_ticket tickets[8];
    size_t count, capacity = below(PLACES + 1);
    struct sandpiper_ticket *ticket = tickets + below(8);
    bool was_taken = ticket->is_taken;
    uint32_t status = sandpiper_take_page(&t, session, page, ticket);
    CHECK(was_taken ? status == SANDPIPER_HAS_TICKET : told(session, status) == status && ticket->is_taken == (status == SANDPIPER_DONE));
    status = sandpiper_ticket_rows(ticket, rows, capacity, &count);
    if (!ticket->is_taken) CHECK(status == SANDPIPER_NO_TICKET && count == 0);
    else if (status == SANDPIPER_NO_ROW) CHECK(count == 0);
    else CHECK(status == (count > capacity ? SANDPIPER_NO_PLACE : SANDPIPER_ROWS) && count > 0 && count <= SANDPIPER_PAGE_ROWS);
    if (below(2)) close_ticket(ticket);
    for (int i = 0; closes_all && i < 8; i++) close_ticket(tickets + i);
}

static struct sandpiper_state state(void) {
    struct sandpiper_state now;
    CHECK(sandpiper_state_of(&t, &now) == SANDPIPER_DONE);
    return now;
}

static void look_at_slot(uint32_t page, uint16_t number) {
    struct sandpiper_page head = {0};
    struct sandpiper_slot slot;
    sandpiper_page_at(&t, page, &head);
    uint32_t status = number >= 1 && number <= head.slots ? SANDPIPER_FOUND : SANDPIPER_NO_ROW;
    CHECK(sandpiper_slot_at(&t, page, number, &slot) == status && (status == SANDPIPER_NO_ROW || slot.kind <= SANDPIPER_DEAD));
}

/* A vacuum begins, goes on or is dropped just where none runs, or one does. */
static void vacuum_at_random(void) {
    struct sandpiper_piece piece;
    bool runs = state().vacuum != 0;
    uint32_t kind = below(96), status;
    if (kind < 32) {
        CHECK(sandpiper_vacuum_begin(&t, below(2)) == (runs ? SANDPIPER_VACUUM_RUNNING : SANDPIPER_DONE));
    } else if (kind == 32) {
        CHECK(sandpiper_vacuum_cancel(&t) == (runs ? SANDPIPER_DONE : SANDPIPER_NO_VACUUM));
    } else {
        status = sandpiper_vacuum_step(&t, &piece);
        CHECK(runs ? status == SANDPIPER_WORKED || status == SANDPIPER_ENDED : status == SANDPIPER_NO_VACUUM);
        CHECK(!runs || (piece.kind == SANDPIPER_NO_PIECE) == (status == SANDPIPER_ENDED));
    }
}

/* An index is made where there is such a column, and neither a vacuum nor who has written is in the way. */
static void make_index(uint8_t column) {
    struct sandpiper_state before = state();
    uint32_t status = sandpiper_create_index(&t, column);
    if (column > 3) CHECK(status == SANDPIPER_NO_SUCH_INDEX);
    else if (before.has_index[column + 1]) CHECK(status == SANDPIPER_DONE);
    else if (before.vacuum) CHECK(status == SANDPIPER_VACUUM_RUNNING);
    else CHECK(status == SANDPIPER_INDEX_BUSY ? before.open_sessions != 0 : status == SANDPIPER_DONE && state().has_index[column + 1]);
}

/* Calls in no order, on keys below 1000. */
static void call_at_random(int calls) {
    static struct sandpiper_row rows[PLACES];
    for (int i = 0; i < calls; i++) {
        uint8_t session = (uint8_t)below(below(8) ? 8 : 256);
        uint64_t key = below(1000);
        set_row(row, key, (int64_t)below(100), "");
        row->length = (uint16_t)below(below(8) ? 200 : 65536);
        switch (below(21)) {
        case 0: told(session, sandpiper_commit(&t, session)); break;
        case 1: told(session, sandpiper_abort(&t, session)); break;
        case 2: told(session, sandpiper_savepoint(&t, session)); break;
        case 3: told(session, sandpiper_rollback_to(&t, session)); break;
        case 4: told(session, sandpiper_release(&t, session)); break;
        case 5: get_told(session, key); break;
        case 6: write_told(session, sandpiper_insert(&t, session, row)); break;
        case 7: write_told(session, sandpiper_update(&t, session, row)); break;
        case 8: told(session, sandpiper_delete(&t, session, key)); break;
        case 9:
            if (below(2)) told(session, sandpiper_open_heap(&t, session));
            else told(session, sandpiper_open_keys(&t, session, key, key + below(500)));
            break;
        case 10: told(session, sandpiper_open_index(&t, session, (uint8_t)below(256), below(9), below(9))); break;
        case 11: next_told(session, rows, below(PLACES + 1)); break;
        case 12: told(session, sandpiper_close_cursor(&t, session)); break;
        case 13: apply_at_random(below(64)); break;
        case 14: look_at_slot(below(64), (uint16_t)below(400)); break;
        case 15:
            if (below(64) == 0) make_index((uint8_t)below(6));
            break;
        case 16:
        case 17:
        case 18: vacuum_at_random(); break;
        case 19: use_ticket(session, below(64), rows, false); break;
        default: told(session, sandpiper_begin(&t, session));
        }
    }
    /* (else the calls would show little) */
    CHECK(done > (uint64_t)calls / 20 && refused > (uint64_t)calls / 20);
    for (int session = 0; session < 256; session++) sandpiper_abort(&t, (uint8_t)session);
    use_ticket(0, 0, rows, true);
}

/* The keys 1000 to 1999 have the rows that were committed first. */
static void check_kept(void) {
    CHECK(sandpiper_begin(&t, 0) == SANDPIPER_DONE);
    for (uint64_t key = 1000; key < 2000; key++) {
        CHECK(sandpiper_get(&t, 0, key, place) == SANDPIPER_FOUND);
        CHECK(place->key == key && place->cols[0] == -(int64_t)key && has_body(place, "kept"));
    }
    CHECK(sandpiper_commit(&t, 0) == SANDPIPER_COMMITTED);
}

int main(int argc, char **argv) {
    row = new_place();
    place = new_place();
    memset(row, 1, sizeof *row);
    set_row(row, 1, 0, "");
    check_closed();
    CHECK(sandpiper_open(&widest, &t) == SANDPIPER_DONE && sandpiper_begin(&t, 9) == SANDPIPER_DONE);
    for (uint64_t key = 1000; key < 2000; key++)
        CHECK(sandpiper_insert(&t, 9, set_row(row, key, -(int64_t)key, "kept")) == SANDPIPER_DONE);
    CHECK(sandpiper_commit(&t, 9) == SANDPIPER_COMMITTED);
    CHECK(sandpiper_open(&widest, &t) == SANDPIPER_HAS_ENGINE);
    for (int session = SANDPIPER_SESSIONS; session < 256; session++) check_session((uint8_t)session);
    check_lengths();
    check_numbers();
    check_kept();
    call_at_random(argc > 1 ? atoi(argv[1]) : 300000);
    check_kept();
    CHECK(sandpiper_close(&t) == SANDPIPER_DONE);
    check_closed();
    free(row);
    free(place);
    puts("all right");
    return 0;
}
