/* Refuses each piece of memory that each step asks for, in turn. Beside the table stands its twin, on which the same steps are taken
 * with memory. After a refusal both tables have to look alike, byte for byte; then the step is repeated, and both have to answer it alike.
 * Linked with -Wl,--wrap=malloc,--wrap=realloc.
 *
 * growth [ROWS [FOLDER]] does so on tables of no row, of 3 and of ROWS, 10,000 where none are said. Those come to many doublings: of the
 * list of pages, of what is noted of them, of the statuses of ids, of sessions' lists, and of an index whose leaves and branches split.
 *
 * The twin tells that a refusal leaves no trace, and not what is right. So what the table was asked and answered is written to FOLDER, a
 * transcript for each table, which heapjudge has to allow. */
#include "checks.h"
#include "refusing.h"
#include "transcript.h"

#define ROWS_AT_A_TIME 64
#define SESSIONS 64
#define COLUMN 1 /* whose index is made late */

enum kind {
    OPEN,
    BEGIN,
    BEGIN_BY_STATEMENT,
    GET,
    INSERT,
    UPDATE,
    DELETE,
    SAVEPOINT,
    ROLLBACK_TO,
    RELEASE,
    COMMIT,
    ABORT,
    OPEN_HEAP,
    OPEN_BY_KEY,
    OPEN_INDEX,
    OPEN_KEYS,
    NEXT,
    CLOSE_CURSOR,
    TAKE_PAGE,
    PRUNE,
    APPLY_PLAN,
    VACUUM_BEGIN,
    VACUUM_STEP,
    VACUUM_CANCEL,
    CREATE_INDEX,
    KINDS
};

static const char *const words[KINDS] = {"open",         "begin",         "begin by statement", "get",          "insert",          "update",
                                         "delete",       "savepoint",     "rollback to",        "release",      "commit",          "abort",
                                         "heap cursor",  "cursor by key", "cursor by index",    "cursor over keys", "next",         "close cursor",    "ticket",
                                         "prune",        "plan",         "vacuum",        "vacuum's step",      "vacuum's cancel", "making"};

/* Those that ask for memory. Each has to be refused here, and no other may ask for any. */
static const bool asks[KINDS] = {[OPEN] = true,      [BEGIN] = true,     [INSERT] = true,      [UPDATE] = true,     [DELETE] = true,
                                 [SAVEPOINT] = true, [OPEN_HEAP] = true, [OPEN_BY_KEY] = true, [OPEN_INDEX] = true, [OPEN_KEYS] = true,
                                 [TAKE_PAGE] = true, [APPLY_PLAN] = true, [CREATE_INDEX] = true};

/* The key stands for a page, an index, a column or a mode, where the kind has one of these. */
struct step {
    enum kind kind;
    uint8_t session;
    uint64_t key;
    int64_t value;
};

struct answer {
    uint32_t status;
    size_t count;
    struct sandpiper_piece piece;
    struct sandpiper_row rows[SANDPIPER_PAGE_ROWS];
};

static struct sandpiper t, twin;
static struct sandpiper_settings settings;
static uint64_t keys;       /* all keys are below */
static long refused[KINDS]; /* how often each kind was refused */
static long untried, looks; /* pieces that were not refused, since the call did without one before; looks at the whole table */
static long first_piece;    /* which piece of a call is refused first */
static const char *folder;  /* where transcripts are written, or null */
static bool over_keys[SESSIONS]; /* whether the session's cursor is over keys */

/* A row of the key. Every eighth has a body; the indexed columns change with the tens of the value. */
static const struct sandpiper_row *row_of(uint64_t key, int64_t value) {
    static struct sandpiper_row row;
    memset(&row, 0, sizeof row);
    row.key = key;
    row.cols[0] = value / 10, row.cols[1] = -(value / 10), row.cols[2] = (int64_t)(key % 7), row.cols[3] = value;
    row.length = key % 8 == 0 ? (uint16_t)(key % 64 + 8) : 0;
    memset(row.body, (int)key, row.length);
    return &row;
}

/* A plan for a page of three versions of one row. */
static const struct sandpiper_action PLAN[] = {{1, SANDPIPER_LEAD, 3}, {2, SANDPIPER_UNUSE, 0}};

/* Takes a page, reads its rows and closes the ticket. Where either was refused, nothing is left of it. */
static uint32_t take_page(struct sandpiper *on, struct step step, struct answer *answer) {
    struct sandpiper_ticket ticket = {0};
    uint32_t status = sandpiper_take_page(on, step.session, (uint32_t)step.key, &ticket);
    CHECK(ticket.is_taken == (status == SANDPIPER_DONE));
    if (status != SANDPIPER_DONE) return status;
    status = sandpiper_ticket_rows(&ticket, answer->rows, SANDPIPER_PAGE_ROWS, &answer->count);
    CHECK(status != SANDPIPER_NO_MEMORY || answer->count == 0);
    CHECK(sandpiper_close_ticket(&ticket) == SANDPIPER_DONE);
    return status;
}

static uint32_t take(struct sandpiper *on, struct step step, struct answer *answer) {
    uint8_t s = step.session;
    switch (step.kind) {
    case OPEN: return sandpiper_open(&settings, on);
    case BEGIN: return sandpiper_begin(on, s);
    case BEGIN_BY_STATEMENT: return sandpiper_begin_read_committed(on, s);
    case GET: return sandpiper_get(on, s, step.key, answer->rows);
    case INSERT: return sandpiper_insert(on, s, row_of(step.key, step.value));
    case UPDATE: return sandpiper_update(on, s, row_of(step.key, step.value));
    case DELETE: return sandpiper_delete(on, s, step.key);
    case SAVEPOINT: return sandpiper_savepoint(on, s);
    case ROLLBACK_TO: return sandpiper_rollback_to(on, s);
    case RELEASE: return sandpiper_release(on, s);
    case COMMIT: return sandpiper_commit(on, s);
    case ABORT: return sandpiper_abort(on, s);
    case OPEN_HEAP: return sandpiper_open_heap(on, s);
    case OPEN_BY_KEY: return sandpiper_open_by_key(on, s, 0, UINT64_MAX);
    case OPEN_INDEX: return sandpiper_open_index(on, s, (uint8_t)step.key, INT64_MIN, INT64_MAX);
    case OPEN_KEYS: return sandpiper_open_keys(on, s, 0, UINT64_MAX);
    case NEXT: return sandpiper_next(on, s, answer->rows, ROWS_AT_A_TIME, &answer->count);
    case CLOSE_CURSOR: return sandpiper_close_cursor(on, s);
    case TAKE_PAGE: return take_page(on, step, answer);
    case PRUNE: return sandpiper_prune(on, (uint32_t)step.key);
    case APPLY_PLAN: return sandpiper_apply_plan(on, (uint32_t)step.key, (uint64_t)step.value, PLAN, sizeof PLAN / sizeof *PLAN);
    case VACUUM_BEGIN: return sandpiper_vacuum_begin(on, step.key);
    case VACUUM_STEP: return sandpiper_vacuum_step(on, &answer->piece);
    case VACUUM_CANCEL: return sandpiper_vacuum_cancel(on);
    case CREATE_INDEX: return sandpiper_create_index(on, (uint8_t)step.key);
    default: CHECK(false);
    }
    return 0;
}

/* The step as a line of a script. */
static void write_step(struct step step) {
    unsigned s = step.session;
    unsigned long long key = step.key;
    long long value = step.value;
    fputs("> ", transcript);
    switch (step.kind) {
    case BEGIN: fprintf(transcript, "begin %u\n", s); break;
    case BEGIN_BY_STATEMENT: fprintf(transcript, "beginrc %u\n", s); break;
    case GET: fprintf(transcript, "get %u %llu\n", s, key); break;
    case INSERT: fprintf(transcript, "insert %u ", s), write_row(row_of(step.key, step.value)); break;
    case UPDATE: fprintf(transcript, "update %u ", s), write_row(row_of(step.key, step.value)); break;
    case DELETE: fprintf(transcript, "delete %u %llu\n", s, key); break;
    case SAVEPOINT: fprintf(transcript, "savepoint %u\n", s); break;
    case ROLLBACK_TO: fprintf(transcript, "rollbackto %u\n", s); break;
    case RELEASE: fprintf(transcript, "release %u\n", s); break;
    case COMMIT: fprintf(transcript, "commit %u\n", s); break;
    case ABORT: fprintf(transcript, "abort %u\n", s); break;
    case OPEN_HEAP: fprintf(transcript, "openheap %u\n", s); break;
    case OPEN_BY_KEY: fprintf(transcript, "openindex %u 0 0 %llu\n", s, (unsigned long long)UINT64_MAX); break;
    case OPEN_INDEX: fprintf(transcript, "openindex %u %llu %lld %lld\n", s, key, (long long)INT64_MIN, (long long)INT64_MAX); break;
    case OPEN_KEYS: fprintf(transcript, "openkeys %u 0 %llu\n", s, (unsigned long long)UINT64_MAX); break;
    case NEXT: fprintf(transcript, "next %u %d\n", s, ROWS_AT_A_TIME); break;
    case CLOSE_CURSOR: fprintf(transcript, "close %u\n", s); break;
    case TAKE_PAGE: fprintf(transcript, "takepage %u %llu\n", s, key); break;
    case PRUNE: fprintf(transcript, "prune %llu\n", key); break;
    case APPLY_PLAN: fprintf(transcript, "apply %llu %lld r1:3 u2\n", key, value); break;
    case VACUUM_BEGIN: fprintf(transcript, "vacuum begin %s\n", key ? "aggressive" : "normal"); break;
    case VACUUM_STEP: fputs("vacuum step\n", transcript); break;
    case VACUUM_CANCEL: fputs("vacuum cancel\n", transcript); break;
    case CREATE_INDEX: fprintf(transcript, "createindex %llu\n", key); break;
    default: CHECK(false);
    }
}

static void write_answer(struct step step, uint32_t status, const struct answer *answer) {
    switch (status) {
    case SANDPIPER_DONE: fputs("ok\n", transcript); break;
    case SANDPIPER_FOUND: fputs("row ", transcript), write_row(answer->rows); break;
    case SANDPIPER_NO_ROW: fputs(step.kind == GET ? "none\n" : "rows 0\n", transcript); break;
    case SANDPIPER_COMMITTED: fputs("committed\n", transcript); break;
    case SANDPIPER_ROLLED_BACK: fputs("rolled back\n", transcript); break;
    case SANDPIPER_ROWS:
        if (step.kind == NEXT && over_keys[step.session]) write_keys(answer->rows, answer->count);
        else write_rows(answer->rows, answer->count);
        break;
    case SANDPIPER_END: fputs("end\n", transcript); break;
    case SANDPIPER_WORKED:
    case SANDPIPER_ENDED: write_piece(&answer->piece); break;
    default: write_refusal(status);
    }
}

/* Writes both, but of a plan that C's list had no memory for: then no step was asked for. */
static void note(struct step step, uint32_t status, const struct answer *answer) {
    if (!transcript || (step.kind == APPLY_PLAN && status == SANDPIPER_NO_MEMORY)) return;
    if (step.kind == OPEN) {
        if (status == SANDPIPER_DONE) write_settings(&settings);
        return;
    }
    write_step(step);
    write_answer(step, status, answer);
    bool opens = step.kind == OPEN_HEAP || step.kind == OPEN_BY_KEY || step.kind == OPEN_INDEX || step.kind == OPEN_KEYS;
    if (opens && status == SANDPIPER_DONE) over_keys[step.session] = step.kind == OPEN_KEYS;
}

/* What both say of themselves, and their pages, byte for byte. */
static void check_alike(void) {
    static uint8_t bytes[SANDPIPER_PAGE_BYTES], others[SANDPIPER_PAGE_BYTES];
    struct sandpiper_state a, b;
    struct sandpiper_page x, y;
    memset(&a, 0, sizeof a), memset(&b, 0, sizeof b);
    CHECK(sandpiper_state_of(&t, &a) == SANDPIPER_DONE && sandpiper_state_of(&twin, &b) == SANDPIPER_DONE);
    CHECK(memcmp(&a, &b, sizeof a) == 0);
    for (uint32_t page = 0; page < a.pages; page++) {
        CHECK(sandpiper_page_at(&t, page, &x) == SANDPIPER_FOUND && sandpiper_page_at(&twin, page, &y) == SANDPIPER_FOUND);
        CHECK(x.change == y.change && x.bits == y.bits && x.slots == y.slots);
        CHECK(sandpiper_page_bytes(&t, page, bytes, sizeof bytes) == SANDPIPER_FOUND);
        CHECK(sandpiper_page_bytes(&twin, page, others, sizeof others) == SANDPIPER_FOUND);
        CHECK(memcmp(bytes, others, sizeof bytes) == 0);
    }
}

/* How many slots an entry has to lead to, and how many it may lead to besides, since they are dead. A redirect leads to a version. */
static void count_roots(uint32_t pages, uint64_t *roots, uint64_t *dead) {
    static uint8_t bytes[SANDPIPER_PAGE_BYTES];
    struct sandpiper_page head;
    struct sandpiper_slot slot, led_to;
    *roots = *dead = 0;
    for (uint32_t page = 0; page < pages; page++) {
        CHECK(sandpiper_page_at(&t, page, &head) == SANDPIPER_FOUND);
        CHECK(sandpiper_page_bytes(&t, page, bytes, sizeof bytes) == SANDPIPER_FOUND);
        for (uint16_t number = 1; number <= head.slots; number++) {
            CHECK(sandpiper_slot_at(&t, page, number, &slot) == SANDPIPER_FOUND);
            size_t pointer = 20 + 4 * (size_t)number; /* its low 15 bits are the version's place */
            size_t place = bytes[pointer] | (size_t)(bytes[pointer + 1] & 0x7f) << 8;
            bool is_heap_only = slot.kind == SANDPIPER_NORMAL && bytes[place + 19] & 0x80;
            *dead += slot.kind == SANDPIPER_DEAD;
            *roots += slot.kind == SANDPIPER_REDIRECT || (slot.kind == SANDPIPER_NORMAL && !is_heap_only);
            if (slot.kind != SANDPIPER_REDIRECT) continue;
            CHECK(sandpiper_slot_at(&t, page, (uint16_t)slot.target, &led_to) == SANDPIPER_FOUND);
            CHECK(led_to.kind == SANDPIPER_NORMAL);
        }
    }
}

/* Each root and redirect has one entry in each index that was there from the beginning; a late one may lack those that were dead. */
static void check_counts(void) {
    struct sandpiper_state state;
    uint64_t roots, dead;
    CHECK(sandpiper_state_of(&t, &state) == SANDPIPER_DONE);
    count_roots(state.pages, &roots, &dead);
    for (int index = 0; index < 5; index++) {
        bool is_old = index == 0 || settings.indexed[index - 1];
        CHECK(state.entries[index] <= (state.has_index[index] ? roots + dead : 0));
        CHECK(!is_old || state.entries[index] >= roots);
    }
}

/* Rows that a cursor hands out, which both tables hand out alike. By an index they ascend by value and key. Answers how many. */
static uint64_t scan(uint8_t s, int index) {
    static struct answer a, b;
    static struct sandpiper_row found;
    uint64_t seen = 0, key = 0;
    int64_t value = INT64_MIN;
    for (;;) {
        uint32_t status = take(&t, (struct step){NEXT, s, 0, 0}, &a);
        CHECK(take(&twin, (struct step){NEXT, s, 0, 0}, &b) == status && a.count == b.count);
        if (status == SANDPIPER_END) return seen;
        CHECK(status == SANDPIPER_ROWS);
        for (size_t i = 0; i < a.count; i++, seen++) {
            const struct sandpiper_row *row = a.rows + i;
            int64_t next = index <= 0 ? (int64_t)row->key : row->cols[index - 1];
            CHECK(row->key == b.rows[i].key && memcmp(row->cols, b.rows[i].cols, sizeof row->cols) == 0);
            CHECK(row->length == b.rows[i].length && memcmp(row->body, b.rows[i].body, row->length) == 0);
            CHECK(index < 0 || seen == 0 || value < next || (value == next && key < row->key));
            CHECK(sandpiper_get(&t, s, row->key, &found) == SANDPIPER_FOUND && memcmp(found.cols, row->cols, sizeof found.cols) == 0);
            value = next, key = row->key;
        }
    }
}

/* A session that has a cursor, or has failed, reads each key alike in both tables. */
static void read_each(uint8_t s) {
    static struct sandpiper_row a, b;
    for (uint64_t key = 0; key < keys; key++) {
        uint32_t status = sandpiper_get(&t, s, key, &a);
        CHECK(sandpiper_get(&twin, s, key, &b) == status);
        CHECK(status != SANDPIPER_FOUND || memcmp(a.cols, b.cols, sizeof a.cols) == 0);
    }
}

/* Opens a cursor in both. */
static bool opens(enum kind kind, uint8_t s, uint8_t index) {
    static struct answer a;
    uint32_t status = take(&t, (struct step){kind, s, index, 0}, &a);
    CHECK(take(&twin, (struct step){kind, s, index, 0}, &a) == status);
    return status == SANDPIPER_DONE;
}

static void close_both(uint8_t s) {
    CHECK(sandpiper_close_cursor(&t, s) == SANDPIPER_DONE && sandpiper_close_cursor(&twin, s) == SANDPIPER_DONE);
}

/* Some open sessions, of each sort one at least, find by each index what they find by the heap, and that in both tables. */
static void look(void) {
    struct sandpiper_state state;
    looks++;
    CHECK(sandpiper_state_of(&t, &state) == SANDPIPER_DONE);
    for (uint8_t s = 0; s < SESSIONS; s++) {
        if (!(state.open_sessions >> s & 1) || (s > 11 && s % 8 != 0)) continue;
        if (!opens(OPEN_HEAP, s, 0)) {
            read_each(s);
            continue;
        }
        uint64_t rows = scan(s, -1);
        close_both(s);
        for (uint8_t index = 0; index < 5; index++) {
            if (!opens(OPEN_INDEX, s, index)) continue;
            CHECK(scan(s, index) == rows);
            close_both(s);
        }
    }
    check_counts();
}

/* Whether the whole table is looked at: a small one often, and a large one now and then. */
static bool is_looked_at(void) {
    static uint64_t times;
    return ++times * 16 % (keys + 32) < 16;
}

/* What the table is like after a refusal: as its twin, on which the step was not taken yet. */
static void check_unchanged(enum kind kind) {
    if (kind == OPEN) {
        CHECK(!t.is_open && sandpiper_begin(&t, 0) == SANDPIPER_NO_ENGINE);
        return;
    }
    if (is_looked_at()) look();
    check_alike();
}

/* Takes a step, each of whose pieces of memory is refused before, and answers what it says in the end. */
static uint32_t ask(struct step step) {
    static struct answer mine, others;
    uint32_t status;
    long times = 0;
    for (refused_piece = first_piece;; refused_piece++, times++) {
        asked = 0, counts = true;
        status = take(&t, step, &mine);
        counts = false;
        note(step, status, &mine);
        CHECK(asks[step.kind] || asked == 0);
        if (status != SANDPIPER_NO_MEMORY) break;
        CHECK(asked == refused_piece + 1);
        check_unchanged(step.kind);
    }
    if (asked > refused_piece + 1) untried += asked - refused_piece - 1;
    refused[step.kind] += times;
    CHECK(take(&twin, step, &others) == status);
    CHECK(status != SANDPIPER_FOUND || memcmp(mine.rows[0].cols, others.rows[0].cols, sizeof mine.rows[0].cols) == 0);
    CHECK(status != SANDPIPER_ROWS || mine.count == others.count);
    for (size_t i = 0; status == SANDPIPER_ROWS && i < mine.count; i++)
        CHECK(mine.rows[i].key == others.rows[i].key && memcmp(mine.rows[i].cols, others.rows[i].cols, sizeof mine.rows[i].cols) == 0);
    if (times > 0) check_alike();
    return status;
}

static void does(enum kind kind, uint8_t session, uint64_t key, int64_t value) {
    CHECK(ask((struct step){kind, session, key, value}) == SANDPIPER_DONE);
}

static void commits(uint8_t session) { CHECK(ask((struct step){COMMIT, session, 0, 0}) == SANDPIPER_COMMITTED); }

static void aborts(uint8_t session) { CHECK(ask((struct step){ABORT, session, 0, 0}) == SANDPIPER_ROLLED_BACK); }

/* Inserts all keys, so many by a transaction. Each comes to a doubling of something. */
static void insert_all(uint64_t at_a_time) {
    for (uint64_t key = 0; key < keys;) {
        does(BEGIN, 1, 0, 0);
        for (uint64_t i = 0; i < at_a_time && key < keys; i++) does(INSERT, 1, key++, 0);
        commits(1);
    }
}

/* So many transactions, of one write each, which the odd ones take back: the statuses of ids grow by each kind of write. */
static void spend_ids(enum kind kind, uint64_t count) {
    for (uint64_t i = 0; i < count && keys > 0; i++) {
        does(i % 3 ? BEGIN : BEGIN_BY_STATEMENT, 2, 0, 0);
        if (kind == INSERT)
            does(INSERT, 2, keys + 1, 0);
        else
            does(kind, 2, i % keys, (int64_t)i);
        if (kind == UPDATE && i % 2 == 0)
            commits(2);
        else
            aborts(2);
        if (i % 64 == 0) does(PRUNE, 0, 0, 0);
    }
}

/* 32 savepoints, in each of which it writes or not: the lists of savepoints and of own ids grow. */
static void write_in_savepoints(uint8_t s) {
    for (uint64_t level = 0; level < 32; level++) {
        does(SAVEPOINT, s, 0, 0);
        if (keys == 0 || level % 4 == 3) continue;
        uint32_t status = ask((struct step){level % 4 == 2 ? DELETE : UPDATE, s, level % keys, (int64_t)level});
        CHECK(status == SANDPIPER_DONE || status == SANDPIPER_NOT_THERE);
    }
    CHECK(ask((struct step){SAVEPOINT, s, 0, 0}) == SANDPIPER_TOO_DEEP);
    for (int level = 0; level < 20; level++) {
        if (level % 3 == 0) does(ROLLBACK_TO, s, 0, 0);
        does(RELEASE, s, 0, 0);
    }
}

/* Many sessions are open with an id each, some with children: a snapshot lists more than it holds without memory. */
static void open_many(uint8_t first, uint8_t end) {
    for (uint8_t s = first; s < end; s++) {
        does(s % 2 ? BEGIN : BEGIN_BY_STATEMENT, s, 0, 0);
        does(INSERT, s, 1000000 + s, 0);
        for (uint64_t child = 0; s % 8 == 0 && child < 12; child++) {
            does(SAVEPOINT, s, 0, 0);
            does(INSERT, s, 2000000 + 100 * s + child, 0);
        }
    }
}

/* Cursors of each kind in a session, to their ends. */
static void scan_all(uint8_t s) {
    const struct step opens[] = {{OPEN_HEAP, s, 0, 0}, {OPEN_BY_KEY, s, 0, 0}, {OPEN_INDEX, s, 1, 0}, {OPEN_KEYS, s, 0, 0}};
    for (size_t at = 0; at < sizeof opens / sizeof *opens; at++) {
        CHECK(ask(opens[at]) == SANDPIPER_DONE);
        while (ask((struct step){NEXT, s, 0, 0}) == SANDPIPER_ROWS) continue;
        does(CLOSE_CURSOR, s, 0, 0);
    }
    if (keys > 0) ask((struct step){GET, s, keys / 2, 0});
}

/* Tickets of some pages, as the session sees them. The rows that a ticket shows are those that a get finds. */
static void take_pages(uint8_t s) {
    struct sandpiper_state state;
    CHECK(sandpiper_state_of(&t, &state) == SANDPIPER_DONE);
    for (uint32_t page = 0; page < state.pages; page += 1 + state.pages / 4) {
        uint32_t status = ask((struct step){TAKE_PAGE, s, page, 0});
        CHECK(status == SANDPIPER_ROWS || status == SANDPIPER_NO_ROW);
    }
    CHECK(ask((struct step){TAKE_PAGE, s, state.pages, 0}) == SANDPIPER_NO_SUCH_PAGE);
}

/* A vacuum, of which one is broken off before. Rows are inserted beside it. */
static void vacuum(bool aggressive) {
    struct step step = {VACUUM_STEP, 0, 0, 0};
    does(VACUUM_BEGIN, 0, aggressive, 0);
    for (uint64_t i = 0; i < 3; i++) {
        ask(step);
        does(BEGIN, 2, 0, 0);
        does(INSERT, 2, 3000000 + 800 * aggressive + 8 * i, 0);
        commits(2);
    }
    if (ask((struct step){VACUUM_CANCEL, 0, 0, 0}) == SANDPIPER_DONE) does(VACUUM_BEGIN, 0, aggressive, 0);
    while (ask(step) == SANDPIPER_WORKED) continue;
}

/* Begins the transcript of another table, or ends the last one. */
static void begin_transcript(bool wanted) {
    static unsigned number;
    char path[4096];
    if (transcript) CHECK(fclose(transcript) == 0);
    transcript = NULL;
    if (!folder || !wanted) return;
    CHECK((size_t)snprintf(path, sizeof path, "%s/%u", folder, ++number) < sizeof path);
    CHECK((transcript = fopen(path, "w")));
}

/* All kinds of steps on a table of so many rows. */
static void all_steps(uint64_t rows, uint64_t at_a_time, uint64_t ids) {
    settings = (struct sandpiper_settings){65536, 2144483648u, 0, 3, 64, {true, false, true, false}};
    keys = rows;
    does(OPEN, 0, 0, 0);
    insert_all(at_a_time);
    does(BEGIN, 3, 0, 0);
    does(OPEN_HEAP, 3, 0, 0);
    spend_ids(UPDATE, ids);
    does(CREATE_INDEX, 0, COLUMN, 0);
    spend_ids(DELETE, ids);
    spend_ids(INSERT, ids);
    ask((struct step){APPLY_PLAN, 0, 0, 5});
    open_many(10, 50);
    for (uint8_t s = 4; s < 8; s++) does(s % 2 ? BEGIN : BEGIN_BY_STATEMENT, s, 0, 0);
    scan_all(4);
    take_pages(4);
    scan_all(5);
    take_pages(5);
    write_in_savepoints(6);
    vacuum(false);
    look();
    for (uint8_t s = 10; s < 50; s++) (s % 3 ? commits : aborts)(s);
    commits(6);
    while (ask((struct step){NEXT, 3, 0, 0}) == SANDPIPER_ROWS) continue;
    aborts(3);
    vacuum(true);
    look();
    check_alike();
    CHECK(sandpiper_close(&t) == SANDPIPER_DONE && sandpiper_close(&twin) == SANDPIPER_DONE);
}

/* The same, first with the first piece of each call refused, then from the second on, .. until none was passed over. */
static void refuse_each(uint64_t rows, uint64_t at_a_time, uint64_t ids) {
    memset(refused, 0, sizeof refused);
    looks = 0, first_piece = 0;
    do {
        untried = 0;
        begin_transcript(true);
        all_steps(rows, at_a_time, ids);
        first_piece++;
    } while (untried > 0);
    begin_transcript(false);
    printf("%lu rows: refused were", (unsigned long)rows);
    for (int kind = 0; kind < KINDS; kind++) {
        if (refused[kind]) printf(" %s %ld,", words[kind], refused[kind]);
        CHECK(rows == 0 || asks[kind] == (refused[kind] > 0));
    }
    printf(" and the whole table was looked at %ld times\n", looks);
}

int main(int argc, char **argv) {
    uint64_t rows = argc > 1 ? strtoull(argv[1], NULL, 10) : 10000;
    folder = argc > 2 ? argv[2] : NULL;
    refuse_each(0, 1, 0);
    refuse_each(3, 1, 70);
    refuse_each(rows, 5, rows / 5);
    return 0;
}
