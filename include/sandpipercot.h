/* Sandpipercot: a multi-version table heap in memory, for C and for what calls C.
 *
 * It is C99, and what C++ of any year reads too. (sandpipercot.hpp has classes over it.)
 *
 * THE HANDLE. A struct sandpiper that is all zeros has no table. sandpiper_open gives it one, and sandpiper_close takes it away,
 * with all its memory. In between the struct may be moved (memcpy it, and use only the new place), but neither copied nor changed:
 * its fields belong to the library.
 *
 * POINTERS. No pointer may be null, and no two that are passed to one call may overlap. The library keeps none of them after
 * the call, and owns nothing of the caller's. A bool is 0 or 1.
 *
 * THREADS. A handle takes one call at a time. Threads may share it where each call is made under one lock of the caller's, as a mutex.
 * No call waits: after SANDPIPER_BUSY let go of the lock, and try again or abort. No call may be made from a signal handler, from the
 * forked child of a process with threads, or from within malloc, realloc or free. Two handles are independent. So is a ticket of all
 * else, once it is taken: it takes one call at a time too, while other threads read other tickets, and step or close the table that it
 * came from.
 *
 * WAITS. After SANDPIPER_BUSY it is noted that the session waits for the other, until its own next step, whatever that answers, or until
 * the other is committed, aborted or returned to a savepoint. Where a wait would close a ring, the answer is SANDPIPER_DEADLOCK. A step
 * is a call that is handed the session's number, but not sandpiper_take_page, nor sandpiper_next with no capacity, nor _insert_many or
 * _update_many of no rows, nor a write of a body over 1024 bytes that answers SANDPIPER_NO_MEMORY, nor a look (sandpiper_next_entry and
 * those after it).
 *
 * MEMORY comes from the program's malloc, realloc and free. Where that is refused, the call says SANDPIPER_NO_MEMORY and has changed
 * nothing; it may be repeated. (Of _insert_many and _update_many the rows before stay written; and where memory for the places of keys
 * is refused, fewer are noted, and the call goes on.) sandpiper_begin_read_committed, _get, _rollback_to, _release, _commit, _abort,
 * _prune, _close, _next, _close_cursor, _slot_at, _page_at, _page_bytes, _check_page, _state_of, _version, _keep_places, _vacuum_begin,
 * _vacuum_step, _vacuum_cancel, _close_ticket and the looks but _draw ask for none. (The first _id_of asks for some, to keep what became of ids that
 * are asked for often; where that is refused it answers all the same.)
 * Nor do _open_heap, _open_by_key, _open_index and _open_keys, unless the session reads by statement and more than 8 ids are in progress.
 *
 * STATUSES. Each call returns one of those below. From 16 on something was refused. Whatever the status is, also where nobody reads
 * it, the table is whole and usable. A refused call leaves all rows as they were. After SANDPIPER_CONFLICT and SANDPIPER_DEADLOCK the
 * session's transaction has failed. An update that answers SANDPIPER_NO_ROOM may have pruned a page, which no session can tell.
 */
#ifndef SANDPIPERCOT_H
#define SANDPIPERCOT_H

#include <stdbool.h>
#include <stddef.h>
#include <stdint.h>

#define SANDPIPER_VERSION "0.4"
#define SANDPIPER_VERSION_MAJOR 0
#define SANDPIPER_VERSION_MINOR 4

#ifdef __cplusplus
extern "C" {
#endif

struct sandpiper {
    void *held;
    bool is_open; /* may be read: whether there is a table */
};

struct sandpiper_settings {
    uint32_t max_pages;      /* how many pages, of 8168 bytes for rows, the table may have: 1 to 65536 */
    uint32_t stop_age;       /* a write that needs an id is refused once the next one is this far from the oldest: 1 to 2144483648 */
    uint32_t freeze_min_age; /* a vacuum freezes versions whose id is more than this many ids old: 0 to 1000000000 */
    uint32_t first_xid;      /* the first transaction's id: 3 to 4294967295 */
    uint32_t dead_limit;     /* how many dead slots a vacuum collects before it goes through the indexes: 1 to 4096 */
    bool indexed[4];         /* which of the columns have an index */
};

/* The widest settings, with no index but that by key. A vacuum is the faster the more dead slots it may collect, and 4096 cost no memory
 * before they are there. */
#define SANDPIPER_WIDEST {65536, 2144483648u, 0, 3, 4096, {false, false, false, false}}

#define SANDPIPER_SESSIONS 64    /* sessions are numbered from 0 to 63 */
#define SANDPIPER_SAVEPOINTS 32  /* that a session may have at a time */
#define SANDPIPER_BODY 1024      /* bytes of the longest body */

/* A row. Of the body the first `length` bytes count; the rest is neither read nor written. It takes 1,072 bytes whatever it holds, so
 * many are best written and read some at a time. */
struct sandpiper_row {
    uint64_t key;
    int64_t cols[4];
    uint16_t length; /* 0 to 1024 */
    uint8_t body[SANDPIPER_BODY];
};

enum sandpiper_status {
    SANDPIPER_DONE = 0,               /* it was done */
    SANDPIPER_FOUND = 1,              /* it was found, and written to the place that was named */
    SANDPIPER_NO_ROW = 2,             /* there is none, and the place is as it was */
    SANDPIPER_COMMITTED = 3,          /* what the session wrote was committed */
    SANDPIPER_ROLLED_BACK = 4,        /* what the session wrote was rolled back: by an abort, or since its transaction had failed */
    SANDPIPER_ROWS = 5,               /* the cursor has handed out rows or keys, or the ticket's rows are shown: one at least */
    SANDPIPER_END = 6,                /* the cursor has handed out all, and stays open */
    SANDPIPER_WORKED = 7,             /* the vacuum did a part of its work, and goes on */
    SANDPIPER_ENDED = 8,              /* the vacuum has ended */
    /* refusals */
    SANDPIPER_NOT_OPEN = 16,          /* the session is not open */
    SANDPIPER_ALREADY_OPEN = 17,      /* the session is open already */
    SANDPIPER_FAILED = 18,            /* the transaction has failed: roll back to a savepoint, or abort */
    SANDPIPER_ALREADY_THERE = 19,     /* an insert: the session reads a row of the key already */
    SANDPIPER_NOT_THERE = 20,         /* an update or delete: the session reads no row of the key */
    SANDPIPER_CONFLICT = 21,          /* a transaction that committed since the session's snapshot was taken wrote the key */
    SANDPIPER_CURSOR_OPEN = 22,       /* the session has a cursor, and while it does it writes nothing */
    SANDPIPER_NO_CURSOR = 23,         /* the session has no cursor */
    SANDPIPER_TOO_DEEP = 24,          /* the session has 32 savepoints */
    SANDPIPER_NO_SAVEPOINT = 25,      /* the session has no savepoint */
    SANDPIPER_TOO_LARGE = 26,         /* the body has more than 1024 bytes */
    SANDPIPER_NO_ROOM = 27,           /* no page has room, and max_pages are in use */
    SANDPIPER_NEEDS_FREEZE = 28,      /* no id can be given until an aggressive vacuum has ended: see stop_age */
    SANDPIPER_BAD_BOUNDS = 29,        /* the lower bound is over the upper */
    SANDPIPER_NO_MEMORY = 30,         /* memory was refused */
    SANDPIPER_NO_SUCH_PAGE = 31,      /* the page is not in use */
    SANDPIPER_NO_SUCH_INDEX = 32,     /* there is no such index */
    SANDPIPER_NO_SUCH_SESSION = 33,   /* the session's number is over 63 */
    SANDPIPER_VACUUM_RUNNING = 34,    /* a vacuum is running already */
    SANDPIPER_NO_VACUUM = 35,         /* no vacuum is running */
    SANDPIPER_INDEX_TOO_NEW = 36,     /* the index was made while the session was open by snapshot */
    SANDPIPER_INDEX_BUSY = 37,        /* an index can't be made while an open session has written */
    SANDPIPER_DEADLOCK = 38,          /* a wait for the session that has written the key would close a ring */
    SANDPIPER_STALE = 39,             /* the plan does not check: the page was changed since, or somebody may see what would go */
    SANDPIPER_NO_ENGINE = 48,         /* the handle has no table */
    SANDPIPER_HAS_ENGINE = 49,        /* sandpiper_open: the handle has a table already */
    SANDPIPER_NO_PLACE = 50,          /* sandpiper_next, _page_bytes, _ticket_rows, _draw: there is no place for a row, a page, all rows, a picture */
    SANDPIPER_NO_TICKET = 51,         /* the ticket has no page */
    SANDPIPER_HAS_TICKET = 52,        /* sandpiper_take_page: the ticket has a page already */
    SANDPIPER_TOO_MANY_PAGES = 53,    /* sandpiper_draw: a picture has at most 64 pages */
    /* sandpiper_open: the first setting that is out of its range */
    SANDPIPER_BAD_MAX_PAGES = 64,
    SANDPIPER_BAD_STOP_AGE = 65,
    SANDPIPER_BAD_FREEZE_MIN_AGE = 66,
    SANDPIPER_BAD_FIRST_XID = 67,
    SANDPIPER_BAD_DEAD_LIMIT = 68,
    SANDPIPER_BUSY = 256              /* plus the number of the open session that has written the key */
};

/* The version of the library: its major number times 100, and its minor number. A program may compare it with the header's. It is no
 * status. */
uint32_t sandpiper_version(void);

/* Opening. The settings are read, and may be let go after the call. */
uint32_t sandpiper_open(const struct sandpiper_settings *settings, struct sandpiper *table);
/* Forgets where keys were put, and notes it from now on, or never: DONE. A new table notes it. It makes gets faster and takes 8 to 16
 * bytes of memory a row, and no answer changes by it. */
uint32_t sandpiper_keep_places(struct sandpiper *table, bool wanted);
/* Ends all sessions, uncommitted, and gives the table's memory back. The handle may be opened again. */
uint32_t sandpiper_close(struct sandpiper *table);

/* Transactions. A session is one transaction: it reads what was committed when it began, and its own writes over that. A
 * commit answers COMMITTED, or ROLLED_BACK where the transaction had failed. Either way the session is closed after it. */
uint32_t sandpiper_begin(struct sandpiper *table, uint8_t session);
/* The same by statement: each get, write and opening of a cursor reads what was committed by then (PostgreSQL's Read Committed). A
 * write there never answers CONFLICT. Between its calls such a session holds back what its own writes and an open cursor need. */
uint32_t sandpiper_begin_read_committed(struct sandpiper *table, uint8_t session);
uint32_t sandpiper_commit(struct sandpiper *table, uint8_t session);
uint32_t sandpiper_abort(struct sandpiper *table, uint8_t session);

/* Savepoints. rollback_to takes back what was written since the newest, which stays, and a failed transaction is usable again;
 * release forgets the newest, and keeps what was written. */
uint32_t sandpiper_savepoint(struct sandpiper *table, uint8_t session);
uint32_t sandpiper_rollback_to(struct sandpiper *table, uint8_t session);
uint32_t sandpiper_release(struct sandpiper *table, uint8_t session);

/* Rows. An insert is of a key that has no row, an update of one that has; each key has one row at most. get answers FOUND or
 * NO_ROW, the others DONE. The place that get writes to need not be set before. */
uint32_t sandpiper_get(struct sandpiper *table, uint8_t session, uint64_t key, struct sandpiper_row *row);
uint32_t sandpiper_insert(struct sandpiper *table, uint8_t session, const struct sandpiper_row *row);
uint32_t sandpiper_update(struct sandpiper *table, uint8_t session, const struct sandpiper_row *row);
uint32_t sandpiper_delete(struct sandpiper *table, uint8_t session, uint64_t key);
/* The same of many rows, in their order: DONE, or what the first row that is refused was answered. *done says how many were written, so
 * rows[*done] is the one that was refused. Those before it stay written. Of no rows nothing is done and nothing looked at: DONE, also where
 * there is no such session, or no table. */
uint32_t sandpiper_insert_many(struct sandpiper *table, uint8_t session, const struct sandpiper_row *rows, size_t count, size_t *done);
uint32_t sandpiper_update_many(struct sandpiper *table, uint8_t session, const struct sandpiper_row *rows, size_t count, size_t *done);

/* Cursors. A session has one at most. open_heap takes all rows, page by page. open_by_key takes those whose key, and open_index
 * those whose value in index c + 1, which is column c, lies between two bounds, both included, in ascending order. (Index 0 is by
 * key, for keys that an int64_t can name.) open_keys takes the keys alone of the rows that open_by_key takes: it reads the index, and of a
 * page that is noted as all-visible nothing. While the cursor is open the session writes nothing, and sets no savepoint; it may
 * read, commit and abort, and the last two close the cursor. */
uint32_t sandpiper_open_heap(struct sandpiper *table, uint8_t session);
uint32_t sandpiper_open_by_key(struct sandpiper *table, uint8_t session, uint64_t low, uint64_t high);
uint32_t sandpiper_open_index(struct sandpiper *table, uint8_t session, uint8_t index, int64_t low, int64_t high);
uint32_t sandpiper_open_keys(struct sandpiper *table, uint8_t session, uint64_t low, uint64_t high);
uint32_t sandpiper_close_cursor(struct sandpiper *table, uint8_t session);

/* Writes the cursor's next rows to an array of the caller's, of `capacity` places, and says in *count how many. ROWS: 1 to `capacity`
 * rows are in the first places, and all others are as they were. Of the heap they are of one page, and what that page has left over
 * comes with the next call; of an index they are fewer only where no more are left. END: nothing is left, and *count is 0. After a
 * refusal *count is 0 too; NO_PLACE says that `capacity` is 0. Rows that were handed out are the caller's: no call ends them.
 * Keys come as rows of an index do: ROWS too, and in each place the key alone is written. */
uint32_t sandpiper_next(struct sandpiper *table, uint8_t session, struct sandpiper_row *rows, size_t capacity, size_t *count);

/* A page as it was at one moment, with what one session saw of it then. All zeros is a ticket with no page. sandpiper_take_page gives it
 * one, and sandpiper_close_ticket takes it away, with its memory; in between it may be moved, but neither copied nor changed. */
struct sandpiper_ticket {
    void *held;
    bool is_taken; /* may be read: whether there is a page */
};

#define SANDPIPER_PAGE_ROWS 291 /* that a page may have */

/* Takes a page, counted from 0, as it is now, with what a statement of the session sees of it: DONE. It reads the table and changes no row
 * of it, and needs no cursor. A ticket that has a page keeps it (HAS_TICKET). The tickets of all pages, with no other call between, hold
 * each row that the session reads, once. */
uint32_t sandpiper_take_page(struct sandpiper *table, uint8_t session, uint32_t page, struct sandpiper_ticket *ticket);
/* Writes the ticket's rows to the first of `capacity` places, in the order of their slots, and says in *count how many there are. ROWS:
 * they are all there, one at least, and the other places are as they were. NO_ROW: there is none. NO_PLACE: there are more than
 * `capacity`, and none is written; for SANDPIPER_PAGE_ROWS there is always room. After another refusal *count is 0. It may be asked at
 * any time and again, with the same answer, whatever was done to the table, and also when that is closed. */
uint32_t sandpiper_ticket_rows(struct sandpiper_ticket *ticket, struct sandpiper_row *rows, size_t capacity, size_t *count);
uint32_t sandpiper_close_ticket(struct sandpiper_ticket *ticket);

/* Makes the index of a column, from 0 to 3, beside the sessions: index column + 1. DONE also where it is there. It is refused while a
 * vacuum runs (VACUUM_RUNNING), and while an open session has written, also where that was rolled back to a savepoint (INDEX_BUSY).
 * A session that sandpiper_begin has opened before opens no cursor by it (INDEX_TOO_NEW). */
uint32_t sandpiper_create_index(struct sandpiper *table, uint8_t column);

/* Takes from a page, counted from 0, the versions that no session can see any more. */
uint32_t sandpiper_prune(struct sandpiper *table, uint32_t page);

/* What a plan does to a slot. */
enum sandpiper_action_kind {
    SANDPIPER_UNUSE = 0,   /* it becomes unused */
    SANDPIPER_KILL = 1,    /* it becomes dead: it holds nothing, and keeps its number while index entries lead to it */
    SANDPIPER_LEAD = 2     /* it leads to the slot `target` */
};

struct sandpiper_action {
    uint16_t slot;   /* counted from 1 */
    uint16_t kind;   /* no plan with a kind that is none of these checks */
    uint16_t target; /* of SANDPIPER_LEAD; else it is not looked at */
};

/* Does to the slots of a page what a plan names, in ascending order of slots, where the plan checks; else STALE, and nothing is done.
 * `change` is the page's change number, as sandpiper_page_at tells it, when the plan was made. It checks where the number is still the
 * page's, and what it takes is the front of chains, each version of which pruning would take now, or versions of transactions that were
 * aborted and to which nothing leads. A front's root leads to the first version that is left, or is dead where none is; all others become
 * unused. A plan may take less than sandpiper_prune does, or nothing. */
uint32_t sandpiper_apply_plan(struct sandpiper *table, uint32_t page, uint64_t change, const struct sandpiper_action *actions,
                              size_t count);

/* A part of a vacuum's work. */
enum sandpiper_piece_kind {
    SANDPIPER_NO_PIECE = 0,        /* the vacuum has ended */
    SANDPIPER_VISITED_PAGE = 1,    /* it pruned page `number`, froze it, and collected dead slots */
    SANDPIPER_REMOVED_ENTRIES = 2, /* it removed entries to collected slots from a part of index `number` */
    SANDPIPER_FREED_SLOTS = 3      /* it made the collected slots of page `number` unused */
};

/* Fields that do not apply to the kind are 0. */
struct sandpiper_piece {
    uint32_t kind;
    uint32_t number;
    uint32_t oldest; /* once the vacuum has ended: the oldest id that is remembered */
};

/* A vacuum, of which one runs at a time, beside the sessions. It frees what no session can see any more, and freezes what is old. An
 * aggressive one passes over no page that has anything to freeze, and at its end old ids are forgotten, so that more can be given. Its
 * steps are small: one page, or one part of an index. A step answers WORKED and writes what it did, or ENDED. cancel drops the
 * vacuum, and what it did stays. */
uint32_t sandpiper_vacuum_begin(struct sandpiper *table, bool aggressive);
uint32_t sandpiper_vacuum_step(struct sandpiper *table, struct sandpiper_piece *piece);
uint32_t sandpiper_vacuum_cancel(struct sandpiper *table);

/* What a table is like at a moment. */
struct sandpiper_state {
    uint32_t next_id;       /* the id that is given next: 3 to 4294967295 */
    uint32_t oldest_id;     /* the oldest id that is remembered, or the next one where none is: 3 to 4294967295 */
    uint32_t ids_left;      /* how many more ids can be given, one after another, before SANDPIPER_NEEDS_FREEZE: 0 to 2144483648 */
    uint32_t pages;         /* how many pages are in use: 0 to 65536 */
    uint64_t open_sessions; /* a bit for each session, the lowest for session 0: 1 where it is open */
    uint64_t entries[5];    /* how many entries each index has: index 0 is by key, and index c + 1 by column c; 0 where there is none */
    bool has_index[5];      /* whether there is an index of that number */
    uint32_t vacuum;        /* 0 where no vacuum runs, 1 where a normal one does, 2 where an aggressive one does */
};

/* Writes what the table is like to `state`: DONE. */
uint32_t sandpiper_state_of(struct sandpiper *table, struct sandpiper_state *state);

/* What a page tells of itself. */
struct sandpiper_page {
    uint64_t change; /* how often a slot was changed otherwise than in hints, modulo 2^64 */
    uint32_t bits;   /* the visibility map's: 1 where the page is all-visible, 2 where it is all-frozen too, else 0 */
    uint32_t slots;  /* how many slots it has: 0 to 291 */
};

/* The head of a page, counted from 0: FOUND, or NO_ROW where the page is not in use, or there is no table. */
uint32_t sandpiper_page_at(struct sandpiper *table, uint32_t page, struct sandpiper_page *head);

/* What is in a slot of a page, for who wants to see versions and chains. */
enum sandpiper_kind {
    SANDPIPER_UNUSED = 0,
    SANDPIPER_NORMAL = 1,   /* a version of a row: who made it, who took it away or 0, and its key */
    SANDPIPER_REDIRECT = 2, /* it leads to the slot of number `target` */
    SANDPIPER_DEAD = 3      /* nothing, but kept while an index leads to it */
};

/* Fields that do not apply to the kind are 0. */
struct sandpiper_slot {
    uint32_t kind;
    uint32_t target;
    uint32_t xmin;
    uint32_t xmax;
    uint64_t key;
};

/* Slot number 1, 2, .. of a page, counted from 0: FOUND, or NO_ROW where there is no such slot, or no table. */
uint32_t sandpiper_slot_at(struct sandpiper *table, uint32_t page, uint16_t number, struct sandpiper_slot *slot);

/* The bytes of a page are in PostgreSQL's layout (docs/format.md), so that a tool can look into one as pageinspect does. */
#define SANDPIPER_PAGE_BYTES 8192

/* Writes the bytes of a page, counted from 0, to the first 8192 of `length`: FOUND; NO_ROW where the page is not in use, or there is no
 * table; NO_PLACE where `length` is less. */
uint32_t sandpiper_page_bytes(struct sandpiper *table, uint32_t page, uint8_t *bytes, size_t length);

/* What is wrong with bytes, as those of a page: the first that holds, in this order. Of slots the lowest is named. */
enum sandpiper_page_fault {
    SANDPIPER_PAGE_SOUND = 0,    /* nothing is */
    SANDPIPER_PAGE_LENGTH = 1,   /* there are not 8192 */
    SANDPIPER_PAGE_HEADER = 2,   /* the checksum, the flags, the special space, the size and version, or the id to prune at */
    SANDPIPER_PAGE_BOUNDS = 3,   /* pd_lower or pd_upper */
    SANDPIPER_PAGE_POINTER = 4,  /* the pointer of a slot */
    SANDPIPER_PAGE_TUPLE = 5,    /* the version in a slot */
    SANDPIPER_PAGE_REDIRECT = 6, /* a slot leads to no heap-only version */
    SANDPIPER_PAGE_OVERLAP = 7   /* the version in a slot lies over that of a lower one */
};

/* Checks bytes from anywhere, and answers what is wrong first, no status. The slot that has it is written to `slot`, or 0. It needs no
 * table. */
uint32_t sandpiper_check_page(const uint8_t *bytes, size_t length, uint32_t *slot);

/* Looks: why a session sees a version, who holds the horizon back, what pruning would do. They are no steps: they change nothing, end no
 * wait and disturb no vacuum. Where there is no table they answer NO_ENGINE, and where a session is asked for that is not open
 * NO_SUCH_SESSION or NOT_OPEN. A session that has failed is told too. After all but FOUND the caller's places are as they were. */

/* A place: a page, counted from 0, and a slot, counted from 1. */
struct sandpiper_place {
    uint32_t page;
    uint16_t slot;
};

/* Where the next entry of a key leads, by the index by key: the first after the entry that leads to `place`, or the first of all where
 * place->slot is 0. It is written to `place`: FOUND, or NO_ROW where there is none. Each leads to a chain of versions of one row. */
uint32_t sandpiper_next_entry(struct sandpiper *table, uint64_t key, struct sandpiper_place *place);

/* Why a session counts what an id did, or does not: the first of these that holds. OWN, BEFORE, UNLISTED, PARENT_BEFORE and PARENT_UNLISTED
 * count. From BEFORE on the id has committed. */
enum sandpiper_reason_kind {
    SANDPIPER_NOBODY = 0,            /* nobody took the version away; or it is frozen, so that its making counts for everybody */
    SANDPIPER_OWN = 1,               /* the id is the session's own, and was not rolled back */
    SANDPIPER_FORGOTTEN = 2,         /* it is not remembered, or was never given */
    SANDPIPER_RUNNING = 3,           /* it is in progress (sandpiper_id_of names its session) */
    SANDPIPER_ABORTED = 4,           /* it was rolled back */
    SANDPIPER_BEFORE = 5,            /* it is before `limit`, the snapshot's xmin */
    SANDPIPER_NOT_BEFORE = 6,        /* it is not before `limit`, the snapshot's xmax: the next id when that was taken */
    SANDPIPER_LISTED = 7,            /* it is between, and the snapshot lists it: it was in progress then */
    SANDPIPER_UNLISTED = 8,          /* it is between, and not listed */
    SANDPIPER_PARENT_BEFORE = 9,     /* the snapshot lists not all children, so the topmost parent was asked: `parent` is BEFORE */
    SANDPIPER_PARENT_NOT_BEFORE = 10,
    SANDPIPER_PARENT_LISTED = 11,
    SANDPIPER_PARENT_UNLISTED = 12
};

/* Fields that do not apply are 0. */
struct sandpiper_reason {
    uint32_t id;     /* who made the version, or took it away */
    uint32_t reason; /* an enum sandpiper_reason_kind */
    uint32_t limit;  /* of BEFORE, NOT_BEFORE and the same of a parent: the id beside which it was held */
    uint32_t parent; /* from PARENT_BEFORE on: the topmost parent */
};

/* A version, and why a session sees it, or does not. */
struct sandpiper_shown {
    uint16_t slot;
    bool is_seen; /* its making counts, and no deletion does */
    struct sandpiper_reason maker;
    struct sandpiper_reason deleter;
};

/* The version at place `n`, counted from 0, of the chain to which an entry leads, and why a statement of the session, begun now, sees it, or
 * does not: FOUND, or NO_ROW where the chain has no more. Of all that is shown of a key, entry by entry, one version is seen, with the row
 * that sandpiper_get finds, or none where that finds none. By statement the snapshot is that at the next id. */
uint32_t sandpiper_explain(struct sandpiper *table, uint8_t session, const struct sandpiper_place *entry, size_t n,
                           struct sandpiper_shown *shown);

/* The snapshot that a session keeps: that of its beginning; by statement that of its open cursor. Without one all is 0. */
struct sandpiper_snapshot {
    bool is_kept;
    bool is_overflowed; /* the children of some transaction are not listed */
    uint32_t xmin;      /* an id before this one is seen */
    uint32_t xmax;      /* this id is not seen, nor one after it */
    size_t listed;      /* so many between them are listed, and so not seen */
};

enum sandpiper_cursor_kind {
    SANDPIPER_NO_CURSOR_OPEN = 0,
    SANDPIPER_INDEX_CURSOR = 1,
    SANDPIPER_HEAP_CURSOR = 2,
    SANDPIPER_KEY_CURSOR = 3
};

/* An open session. */
struct sandpiper_session {
    bool is_by_statement;
    bool has_failed;
    bool is_waiting;
    uint8_t waits_for; /* for which session it waits, if it does; else 0 */
    uint32_t cursor;   /* an enum sandpiper_cursor_kind */
    size_t savepoints;
    size_t ids;        /* how many it has of its own */
    struct sandpiper_snapshot snapshot;
};

uint32_t sandpiper_session_of(struct sandpiper *table, uint8_t session, struct sandpiper_session *shown);
/* The id of this number, counted from 0: of a session's own in the order of giving, or of those that its snapshot lists. FOUND, or NO_ROW
 * where there are no more. */
uint32_t sandpiper_own_id(struct sandpiper *table, uint8_t session, size_t n, uint32_t *id);
uint32_t sandpiper_listed_id(struct sandpiper *table, uint8_t session, size_t n, uint32_t *id);
/* How many own ids the session had at a savepoint: 0 stands for the newest, 1 for the one before. Those behind came since. FOUND, or NO_ROW
 * where there is no such savepoint. */
uint32_t sandpiper_ids_at_savepoint(struct sandpiper *table, uint8_t session, size_t savepoint, size_t *count);

enum sandpiper_holder {
    SANDPIPER_NEXT_ID = 0,     /* nobody holds it back: the horizon is the next id */
    SANDPIPER_BY_SNAPSHOT = 1, /* the session does by its snapshot, whose xmin it is */
    SANDPIPER_BY_ID = 2        /* the session does by its first id */
};

/* The horizon: what was deleted by an id before it may go. */
struct sandpiper_horizon {
    uint32_t id;
    uint32_t holder;  /* an enum sandpiper_holder */
    uint32_t session; /* the lowest that holds it back, else 0 */
};

uint32_t sandpiper_horizon_of(struct sandpiper *table, struct sandpiper_horizon *horizon);

/* What became of an id. */
enum sandpiper_id_status {
    SANDPIPER_ID_UNKNOWN = 0, /* it was not given, or is forgotten */
    SANDPIPER_ID_RUNNING = 1,
    SANDPIPER_ID_COMMITTED = 2,
    SANDPIPER_ID_ABORTED = 3
};

struct sandpiper_id {
    uint32_t status;
    bool is_owned;   /* whether an open session has it */
    uint8_t session; /* which, else 0 */
};

uint32_t sandpiper_id_of(struct sandpiper *table, uint32_t id, struct sandpiper_id *shown);

/* What pruning would do to a slot now, and why not more. */
enum sandpiper_fate_kind {
    SANDPIPER_NO_SLOT = 0,         /* the page has no such slot */
    SANDPIPER_UNUSED_SLOT = 1,
    SANDPIPER_DEAD_SLOT = 2,       /* it stays dead until a vacuum frees it */
    SANDPIPER_REDIRECT_SLOT = 3,   /* it leads to `slot` */
    SANDPIPER_GOES_ROLLED_BACK = 4, /* the version goes: its maker `id` was rolled back */
    SANDPIPER_GOES_DELETED = 5,    /* it goes: its deleter `id` has committed, and is before the horizon */
    SANDPIPER_GOES_WITH = 6,       /* it goes with a dead version that comes after it in its chain, the last of them in `slot` */
    SANDPIPER_STAYS = 7,           /* it stays: nobody deleted it */
    SANDPIPER_STAYS_DELETED = 8    /* it stays: its deleter `id` is `status`; if committed, not before the horizon */
};

/* Fields that do not apply are 0. */
struct sandpiper_fate {
    uint32_t kind;
    uint32_t id;
    uint32_t status; /* an enum sandpiper_id_status; an id that is not remembered counts as running */
    uint32_t slot;
};

/* FOUND, or NO_SUCH_PAGE where the page is not in use. */
uint32_t sandpiper_fate_of(struct sandpiper *table, uint32_t page, uint16_t slot, struct sandpiper_fate *fate);

/* The plan that sandpiper_prune of a page would follow now, to be handed to sandpiper_apply_plan with *change. FOUND: its actions are in the
 * first *count of `capacity` places. NO_PLACE: there are more than `capacity`, and none is written; for SANDPIPER_PAGE_ROWS there is always
 * room. NO_SUCH_PAGE: the page is not in use; then *count and *change are 0, as after NO_ENGINE. */
uint32_t sandpiper_plan_of(struct sandpiper *table, uint32_t page, struct sandpiper_action *actions, size_t capacity, size_t *count,
                           uint64_t *change);

enum sandpiper_phase {
    SANDPIPER_VISITS_PAGES = 0,
    SANDPIPER_GOES_THROUGH_INDEX = 1,
    SANDPIPER_FREES_SLOTS = 2
};

/* The vacuum that is running. */
struct sandpiper_vacuum {
    uint32_t mode;    /* 1 if it is normal, 2 if it is aggressive */
    uint32_t phase;   /* an enum sandpiper_phase: the work of its next step */
    uint32_t index;   /* of SANDPIPER_GOES_THROUGH_INDEX which, else 0 */
    uint32_t next;    /* the next page that it visits */
    size_t collected; /* how many slots it has collected that are not freed yet */
    uint32_t horizon; /* the horizon of its beginning */
    uint32_t cutoff;  /* it freezes what an id before this one made */
};

/* FOUND, or NO_VACUUM where none runs. */
uint32_t sandpiper_vacuum_of(struct sandpiper *table, struct sandpiper_vacuum *vacuum);

#define SANDPIPER_PICTURE_PAGES 64 /* that a picture may have */

/* A picture of the table as it is now, as SVG: of the pages of these numbers, counted from 0, or of all where `count` is 0. (Then nothing is
 * read at `pages`.) Its text is written to the first of `capacity` bytes, with no zero behind it, and its length to *length: FOUND. NO_PLACE:
 * it is longer than `capacity`, and nothing is written but *length. After all else *length is 0: TOO_MANY_PAGES, where more pages than
 * SANDPIPER_PICTURE_PAGES were asked for or are in use; NO_SUCH_PAGE, where one is not in use; NO_MEMORY. */
uint32_t sandpiper_draw(struct sandpiper *table, const uint32_t *pages, size_t count, char *text, size_t capacity, size_t *length);

/* A status in words: one sentence, which lasts as long as the program. */
static inline const char *sandpiper_words(uint32_t status) {
    switch (status) {
    case SANDPIPER_DONE: return "it was done";
    case SANDPIPER_FOUND: return "it was found, and written to the place that was named";
    case SANDPIPER_NO_ROW: return "there is none, and the place is as it was";
    case SANDPIPER_COMMITTED: return "what the session wrote was committed";
    case SANDPIPER_ROLLED_BACK: return "what the session wrote was rolled back";
    case SANDPIPER_ROWS: return "there are rows, or keys: one at least";
    case SANDPIPER_END: return "the cursor has handed out all, and stays open";
    case SANDPIPER_WORKED: return "the vacuum did a part of its work, and goes on";
    case SANDPIPER_ENDED: return "the vacuum has ended";
    case SANDPIPER_NOT_OPEN: return "the session is not open";
    case SANDPIPER_ALREADY_OPEN: return "the session is open already";
    case SANDPIPER_FAILED: return "the transaction has failed: roll back to a savepoint, or abort";
    case SANDPIPER_ALREADY_THERE: return "the session reads a row of the key already";
    case SANDPIPER_NOT_THERE: return "the session reads no row of the key";
    case SANDPIPER_CONFLICT: return "a transaction that committed since the session's snapshot was taken wrote the key";
    case SANDPIPER_CURSOR_OPEN: return "the session has a cursor, and while it does it writes nothing";
    case SANDPIPER_NO_CURSOR: return "the session has no cursor";
    case SANDPIPER_TOO_DEEP: return "the session has 32 savepoints";
    case SANDPIPER_NO_SAVEPOINT: return "the session has no savepoint";
    case SANDPIPER_TOO_LARGE: return "the body has more than 1024 bytes";
    case SANDPIPER_NO_ROOM: return "no page has room, and max_pages are in use";
    case SANDPIPER_NEEDS_FREEZE: return "no id can be given until an aggressive vacuum has ended";
    case SANDPIPER_BAD_BOUNDS: return "the lower bound is over the upper";
    case SANDPIPER_NO_MEMORY: return "memory was refused";
    case SANDPIPER_NO_SUCH_PAGE: return "the page is not in use";
    case SANDPIPER_NO_SUCH_INDEX: return "there is no such index";
    case SANDPIPER_NO_SUCH_SESSION: return "the session's number is over 63";
    case SANDPIPER_VACUUM_RUNNING: return "a vacuum is running already";
    case SANDPIPER_NO_VACUUM: return "no vacuum is running";
    case SANDPIPER_INDEX_TOO_NEW: return "the index was made while the session was open by snapshot";
    case SANDPIPER_INDEX_BUSY: return "an index can't be made while an open session has written";
    case SANDPIPER_DEADLOCK: return "a wait for the session that has written the key would close a ring";
    case SANDPIPER_STALE: return "the plan does not check";
    case SANDPIPER_NO_ENGINE: return "the handle has no table";
    case SANDPIPER_HAS_ENGINE: return "the handle has a table already";
    case SANDPIPER_NO_PLACE: return "there is no place for a row, for a page, for all rows, or for a picture";
    case SANDPIPER_NO_TICKET: return "the ticket has no page";
    case SANDPIPER_HAS_TICKET: return "the ticket has a page already";
    case SANDPIPER_TOO_MANY_PAGES: return "a picture has at most 64 pages";
    case SANDPIPER_BAD_MAX_PAGES: return "the setting max_pages is out of its range";
    case SANDPIPER_BAD_STOP_AGE: return "the setting stop_age is out of its range";
    case SANDPIPER_BAD_FREEZE_MIN_AGE: return "the setting freeze_min_age is out of its range";
    case SANDPIPER_BAD_FIRST_XID: return "the setting first_xid is out of its range";
    case SANDPIPER_BAD_DEAD_LIMIT: return "the setting dead_limit is out of its range";
    default: return status - SANDPIPER_BUSY < SANDPIPER_SESSIONS ? "another open session has written the key" : "no status";
    }
}

#ifdef __cplusplus
}
#endif

#endif
