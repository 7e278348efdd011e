/* Looks: what they show, what they refuse, and that they change nothing. The cases of tests/looks are compared by test_looks.py. */
#include "checks.h"

#include <string.h>

static struct sandpiper t;
static struct sandpiper_row row;

static void write_row(uint8_t session, uint64_t key, int64_t value, bool is_new) {
    set_row(&row, key, value, "row");
    CHECK((is_new ? sandpiper_insert(&t, session, &row) : sandpiper_update(&t, session, &row)) == SANDPIPER_DONE);
}

/* Key 1 was written by 3, 4 and 5, of which session 1 sees the first alone; session 2 writes key 2 under 6. */
static void open_table(void) {
    const struct sandpiper_settings settings = {4, 1000, 0, 3, 64, {false, false, false, false}};
    CHECK(sandpiper_open(&settings, &t) == SANDPIPER_DONE);
    for (int64_t value = 0; value < 3; value++) {
        CHECK(sandpiper_begin(&t, 0) == SANDPIPER_DONE);
        write_row(0, 1, value, value == 0);
        CHECK(sandpiper_commit(&t, 0) == SANDPIPER_COMMITTED);
        if (value == 0) CHECK(sandpiper_begin(&t, 1) == SANDPIPER_DONE);
    }
    CHECK(sandpiper_begin(&t, 2) == SANDPIPER_DONE);
    write_row(2, 2, 0, true);
}

static bool is_reason(struct sandpiper_reason it, uint32_t id, uint32_t reason, uint32_t limit) {
    return it.id == id && it.reason == reason && it.limit == limit && it.parent == 0;
}

static void a_key_is_explained(void) {
    struct sandpiper_place place = {0, 0};
    struct sandpiper_shown shown;
    open_table();
    CHECK(sandpiper_next_entry(&t, 1, &place) == SANDPIPER_FOUND && place.page == 0 && place.slot == 1);
    CHECK(sandpiper_explain(&t, 1, &place, 0, &shown) == SANDPIPER_FOUND && shown.slot == 1 && shown.is_seen);
    CHECK(is_reason(shown.maker, 3, SANDPIPER_BEFORE, 4) && is_reason(shown.deleter, 4, SANDPIPER_NOT_BEFORE, 4));
    CHECK(sandpiper_explain(&t, 1, &place, 1, &shown) == SANDPIPER_FOUND && shown.slot == 2 && !shown.is_seen);
    CHECK(sandpiper_explain(&t, 1, &place, 2, &shown) == SANDPIPER_FOUND && is_reason(shown.deleter, 0, SANDPIPER_NOBODY, 0));
    CHECK(sandpiper_explain(&t, 1, &place, 3, &shown) == SANDPIPER_NO_ROW && shown.slot == 3);
    CHECK(sandpiper_next_entry(&t, 1, &place) == SANDPIPER_NO_ROW && place.slot == 1);
    place.slot = 0;
    CHECK(sandpiper_next_entry(&t, 2, &place) == SANDPIPER_FOUND);
    CHECK(sandpiper_explain(&t, 2, &place, 0, &shown) == SANDPIPER_FOUND && shown.is_seen);
    CHECK(is_reason(shown.maker, 6, SANDPIPER_OWN, 0));
    CHECK(sandpiper_explain(&t, 1, &place, 0, &shown) == SANDPIPER_FOUND && is_reason(shown.maker, 6, SANDPIPER_RUNNING, 0));
    CHECK(sandpiper_close(&t) == SANDPIPER_DONE);
}

static void a_session_is_shown(void) {
    struct sandpiper_session shown;
    uint32_t id = 77;
    open_table();
    CHECK(sandpiper_session_of(&t, 2, &shown) == SANDPIPER_FOUND);
    CHECK(!shown.is_by_statement && !shown.has_failed && !shown.is_waiting && shown.waits_for == 0 && shown.savepoints == 0);
    CHECK(shown.ids == 1 && shown.cursor == SANDPIPER_NO_CURSOR_OPEN);
    CHECK(shown.snapshot.is_kept && shown.snapshot.xmin == 6 && shown.snapshot.xmax == 6 && shown.snapshot.listed == 0);
    CHECK(sandpiper_own_id(&t, 2, 0, &id) == SANDPIPER_FOUND && id == 6);
    CHECK(sandpiper_own_id(&t, 2, 1, &id) == SANDPIPER_NO_ROW && id == 6);
    CHECK(sandpiper_begin(&t, 3) == SANDPIPER_DONE);
    CHECK(sandpiper_session_of(&t, 3, &shown) == SANDPIPER_FOUND && shown.snapshot.xmin == 6 && shown.snapshot.xmax == 7);
    CHECK(shown.snapshot.listed == 1 && sandpiper_listed_id(&t, 3, 0, &id) == SANDPIPER_FOUND && id == 6);
    CHECK(sandpiper_listed_id(&t, 3, 1, &id) == SANDPIPER_NO_ROW && sandpiper_listed_id(&t, 3, SIZE_MAX, &id) == SANDPIPER_NO_ROW);
    /* session 3 waits for 2, and a look ends no wait; a write of a key that was committed since makes session 1 fail */
    CHECK(sandpiper_insert(&t, 3, set_row(&row, 2, 0, "")) == SANDPIPER_BUSY + 2);
    CHECK(sandpiper_session_of(&t, 3, &shown) == SANDPIPER_FOUND && shown.is_waiting && shown.waits_for == 2);
    CHECK(sandpiper_session_of(&t, 3, &shown) == SANDPIPER_FOUND && shown.is_waiting);
    CHECK(sandpiper_update(&t, 1, set_row(&row, 1, 9, "")) == SANDPIPER_CONFLICT);
    CHECK(sandpiper_session_of(&t, 1, &shown) == SANDPIPER_FOUND && shown.has_failed);
    CHECK(sandpiper_begin_read_committed(&t, 4) == SANDPIPER_DONE);
    CHECK(sandpiper_session_of(&t, 4, &shown) == SANDPIPER_FOUND && shown.is_by_statement && !shown.snapshot.is_kept);
    CHECK(sandpiper_listed_id(&t, 4, 0, &id) == SANDPIPER_NO_ROW);
    CHECK(sandpiper_open_keys(&t, 4, 0, 9) == SANDPIPER_DONE);
    CHECK(sandpiper_session_of(&t, 4, &shown) == SANDPIPER_FOUND && shown.snapshot.is_kept && shown.cursor == SANDPIPER_KEY_CURSOR);
    CHECK(sandpiper_close(&t) == SANDPIPER_DONE);
}

/* How many own ids there were at the newest savepoint and at the one before, or -1; and how many there are. */
static bool has_ids(long newest, long before, size_t now) {
    struct sandpiper_session shown;
    const long due[] = {newest, before};
    for (size_t savepoint = 0; savepoint < 2; savepoint++) {
        size_t count = 77;
        const uint32_t status = sandpiper_ids_at_savepoint(&t, 2, savepoint, &count);
        if (due[savepoint] < 0 ? status != SANDPIPER_NO_ROW || count != 77 : status != SANDPIPER_FOUND || count != (size_t)due[savepoint])
            return false;
    }
    return sandpiper_session_of(&t, 2, &shown) == SANDPIPER_FOUND && shown.ids == now;
}

/* As in PostgreSQL a savepoint's first write gives each level below an id first, a return takes back what came since, and what was released
 * belongs to the level below. */
static void own_ids_are_shown_by_level(void) {
    open_table();
    CHECK(has_ids(-1, -1, 1) && sandpiper_savepoint(&t, 2) == SANDPIPER_DONE && has_ids(1, -1, 1));
    CHECK(sandpiper_savepoint(&t, 2) == SANDPIPER_DONE && has_ids(1, 1, 1));
    write_row(2, 3, 0, true);
    CHECK(has_ids(2, 1, 3) && sandpiper_rollback_to(&t, 2) == SANDPIPER_DONE && has_ids(2, 1, 2));
    write_row(2, 3, 0, true);
    CHECK(has_ids(2, 1, 3) && sandpiper_release(&t, 2) == SANDPIPER_DONE && has_ids(1, -1, 3));
    CHECK(sandpiper_close(&t) == SANDPIPER_DONE);
}

static void the_horizon_and_fates_are_shown(void) {
    struct sandpiper_horizon horizon;
    struct sandpiper_fate fate;
    struct sandpiper_id id;
    struct sandpiper_vacuum vacuum;
    struct sandpiper_piece piece;
    open_table();
    CHECK(sandpiper_horizon_of(&t, &horizon) == SANDPIPER_FOUND);
    CHECK(horizon.id == 4 && horizon.holder == SANDPIPER_BY_SNAPSHOT && horizon.session == 1);
    CHECK(sandpiper_fate_of(&t, 0, 1, &fate) == SANDPIPER_FOUND && fate.kind == SANDPIPER_STAYS_DELETED && fate.id == 4);
    CHECK(fate.status == SANDPIPER_ID_COMMITTED && fate.slot == 0);
    CHECK(sandpiper_fate_of(&t, 0, 3, &fate) == SANDPIPER_FOUND && fate.kind == SANDPIPER_STAYS);
    CHECK(sandpiper_fate_of(&t, 0, 0, &fate) == SANDPIPER_FOUND && fate.kind == SANDPIPER_NO_SLOT);
    CHECK(sandpiper_fate_of(&t, 1, 1, &fate) == SANDPIPER_NO_SUCH_PAGE);
    CHECK(sandpiper_id_of(&t, 6, &id) == SANDPIPER_FOUND && id.status == SANDPIPER_ID_RUNNING && id.is_owned && id.session == 2);
    CHECK(sandpiper_id_of(&t, 3, &id) == SANDPIPER_FOUND && id.status == SANDPIPER_ID_COMMITTED && !id.is_owned && id.session == 0);
    CHECK(sandpiper_id_of(&t, UINT32_MAX, &id) == SANDPIPER_FOUND && id.status == SANDPIPER_ID_UNKNOWN);
    CHECK(sandpiper_vacuum_of(&t, &vacuum) == SANDPIPER_NO_VACUUM);
    CHECK(sandpiper_vacuum_begin(&t, true) == SANDPIPER_DONE && sandpiper_vacuum_of(&t, &vacuum) == SANDPIPER_FOUND);
    CHECK(vacuum.mode == 2 && vacuum.phase == SANDPIPER_VISITS_PAGES && vacuum.next == 0 && vacuum.horizon == 4 && vacuum.cutoff == 4);
    CHECK(sandpiper_vacuum_step(&t, &piece) == SANDPIPER_WORKED && sandpiper_vacuum_of(&t, &vacuum) == SANDPIPER_FOUND);
    CHECK(vacuum.next == 1 && vacuum.collected == 0);
    CHECK(sandpiper_close(&t) == SANDPIPER_DONE);
}

static void a_plan_is_what_a_pruning_does(void) {
    struct sandpiper_action actions[SANDPIPER_PAGE_ROWS], few[1] = {{9, 9, 9}};
    struct sandpiper_page head;
    struct sandpiper_slot slot;
    size_t count = 77;
    uint64_t change = 77;
    open_table();
    CHECK(sandpiper_plan_of(&t, 0, actions, SANDPIPER_PAGE_ROWS, &count, &change) == SANDPIPER_FOUND && count == 0);
    CHECK(sandpiper_abort(&t, 1) == SANDPIPER_ROLLED_BACK);
    CHECK(sandpiper_plan_of(&t, 0, few, 1, &count, &change) == SANDPIPER_NO_PLACE && count == 2 && few[0].slot == 9);
    CHECK(sandpiper_plan_of(&t, 0, actions, SANDPIPER_PAGE_ROWS, &count, &change) == SANDPIPER_FOUND && count == 2);
    CHECK(actions[0].slot == 1 && actions[0].kind == SANDPIPER_LEAD && actions[0].target == 3);
    CHECK(actions[1].slot == 2 && actions[1].kind == SANDPIPER_UNUSE && actions[1].target == 0);
    CHECK(sandpiper_page_at(&t, 0, &head) == SANDPIPER_FOUND && head.change == change);
    CHECK(sandpiper_apply_plan(&t, 0, change, actions, count) == SANDPIPER_DONE);
    CHECK(sandpiper_slot_at(&t, 0, 1, &slot) == SANDPIPER_FOUND && slot.kind == SANDPIPER_REDIRECT && slot.target == 3);
    count = 77;
    CHECK(sandpiper_plan_of(&t, 9, actions, SANDPIPER_PAGE_ROWS, &count, &change) == SANDPIPER_NO_SUCH_PAGE && count == 0 && change == 0);
    CHECK(sandpiper_close(&t) == SANDPIPER_DONE);
}

/* Where there is no table, or no such session, the places are as they were. */
static void what_is_refused_writes_nothing(void) {
    static const uint8_t sessions[] = {0, 63, 64, 255};
    struct sandpiper_place place = {1, 2};
    struct sandpiper_shown shown, shown_before;
    struct sandpiper_session session, session_before;
    struct sandpiper_horizon horizon = {7, 7, 7};
    struct sandpiper_fate fate = {7, 7, 7, 7};
    struct sandpiper_vacuum vacuum = {7, 7, 7, 7, 7, 7, 7};
    struct sandpiper_id id = {7, true, 7};
    struct sandpiper_action action = {7, 7, 7};
    size_t count = 7, ids = 7;
    uint64_t change = 7;
    uint32_t number = 7;
    memset(&shown, 1, sizeof shown), memcpy(&shown_before, &shown, sizeof shown);
    memset(&session, 1, sizeof session), memcpy(&session_before, &session, sizeof session);
    for (int is_open = 0; is_open < 2; is_open++) {
        if (is_open) CHECK(sandpiper_open(&(struct sandpiper_settings)SANDPIPER_WIDEST, &t) == SANDPIPER_DONE);
        for (size_t i = 0; i < 4; i++) {
            const uint32_t status = !is_open ? SANDPIPER_NO_ENGINE : i < 2 ? SANDPIPER_NOT_OPEN : SANDPIPER_NO_SUCH_SESSION;
            CHECK(sandpiper_explain(&t, sessions[i], &place, 0, &shown) == status);
            CHECK(sandpiper_session_of(&t, sessions[i], &session) == status);
            CHECK(sandpiper_own_id(&t, sessions[i], 0, &number) == status && sandpiper_listed_id(&t, sessions[i], 0, &number) == status);
            CHECK(sandpiper_ids_at_savepoint(&t, sessions[i], 0, &ids) == status && ids == 7);
        }
        const uint32_t none = is_open ? SANDPIPER_NO_SUCH_PAGE : SANDPIPER_NO_ENGINE;
        CHECK(sandpiper_fate_of(&t, 0, 1, &fate) == none && sandpiper_fate_of(&t, UINT32_MAX, UINT16_MAX, &fate) == none);
        CHECK(sandpiper_plan_of(&t, 0, &action, 1, &count, &change) == none && count == 0 && change == 0);
        CHECK(sandpiper_vacuum_of(&t, &vacuum) == (is_open ? SANDPIPER_NO_VACUUM : SANDPIPER_NO_ENGINE));
        CHECK(sandpiper_next_entry(&t, 1, &place) == (is_open ? SANDPIPER_NO_ROW : SANDPIPER_NO_ENGINE));
    }
    CHECK(memcmp(&shown, &shown_before, sizeof shown) == 0 && memcmp(&session, &session_before, sizeof session) == 0);
    CHECK(number == 7 && place.page == 1 && place.slot == 2 && action.slot == 7 && fate.kind == 7 && fate.slot == 7 && vacuum.next == 7);
    CHECK(sandpiper_close(&t) == SANDPIPER_DONE);
    CHECK(sandpiper_horizon_of(&t, &horizon) == SANDPIPER_NO_ENGINE && horizon.id == 7);
    CHECK(sandpiper_id_of(&t, 3, &id) == SANDPIPER_NO_ENGINE && id.status == 7 && id.is_owned && id.session == 7);
}

int main(void) {
    a_key_is_explained();
    a_session_is_shown();
    own_ids_are_shown_by_level();
    the_horizon_and_fates_are_shown();
    a_plan_is_what_a_pruning_does();
    what_is_refused_writes_nothing();
    puts("looks.c: as they have to be");
    return 0;
}
