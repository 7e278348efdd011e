// Sandpipercot for C++17: classes over the calls of sandpipercot.h, with no library of its own.
//
// A Table, Session, Cursor or Ticket gives back at the end of its scope what it has: a table is closed, a session aborted, a cursor closed.
// Each may be moved, and not copied; whoever was moved from is closed. What the table refuses is thrown as Refused, with its Status.
// A session or cursor may outlive its table: its calls are then refused as NoEngine. One call at a time, as sandpipercot.h says: a table
// and what comes of it stay under one lock of the caller's, but for tickets.
#ifndef SANDPIPERCOT_HPP
#define SANDPIPERCOT_HPP

#include <sandpipercot.h>

#include <array>
#include <chrono>
#include <cstdint>
#include <cstring>
#include <memory>
#include <optional>
#include <stdexcept>
#include <string>
#include <string_view>
#include <thread>
#include <utility>
#include <vector>

namespace sandpipercot {

// What a call answers. The number of a Busy says besides which session is meant, which Refused::session tells.
enum class Status : std::uint32_t {
    Done = SANDPIPER_DONE,
    Found = SANDPIPER_FOUND,
    NoRow = SANDPIPER_NO_ROW,
    Committed = SANDPIPER_COMMITTED,
    RolledBack = SANDPIPER_ROLLED_BACK,
    Rows = SANDPIPER_ROWS,
    End = SANDPIPER_END,
    Worked = SANDPIPER_WORKED,
    Ended = SANDPIPER_ENDED,
    NotOpen = SANDPIPER_NOT_OPEN,
    AlreadyOpen = SANDPIPER_ALREADY_OPEN,
    Failed = SANDPIPER_FAILED,
    AlreadyThere = SANDPIPER_ALREADY_THERE,
    NotThere = SANDPIPER_NOT_THERE,
    Conflict = SANDPIPER_CONFLICT,
    CursorOpen = SANDPIPER_CURSOR_OPEN,
    NoCursor = SANDPIPER_NO_CURSOR,
    TooDeep = SANDPIPER_TOO_DEEP,
    NoSavepoint = SANDPIPER_NO_SAVEPOINT,
    TooLarge = SANDPIPER_TOO_LARGE,
    NoRoom = SANDPIPER_NO_ROOM,
    NeedsFreeze = SANDPIPER_NEEDS_FREEZE,
    BadBounds = SANDPIPER_BAD_BOUNDS,
    NoMemory = SANDPIPER_NO_MEMORY,
    NoSuchPage = SANDPIPER_NO_SUCH_PAGE,
    NoSuchIndex = SANDPIPER_NO_SUCH_INDEX,
    NoSuchSession = SANDPIPER_NO_SUCH_SESSION,
    VacuumRunning = SANDPIPER_VACUUM_RUNNING,
    NoVacuum = SANDPIPER_NO_VACUUM,
    IndexTooNew = SANDPIPER_INDEX_TOO_NEW,
    IndexBusy = SANDPIPER_INDEX_BUSY,
    Deadlock = SANDPIPER_DEADLOCK,
    Stale = SANDPIPER_STALE,
    NoEngine = SANDPIPER_NO_ENGINE,
    HasEngine = SANDPIPER_HAS_ENGINE,
    NoPlace = SANDPIPER_NO_PLACE,
    NoTicket = SANDPIPER_NO_TICKET,
    HasTicket = SANDPIPER_HAS_TICKET,
    TooManyPages = SANDPIPER_TOO_MANY_PAGES,
    BadMaxPages = SANDPIPER_BAD_MAX_PAGES,
    BadStopAge = SANDPIPER_BAD_STOP_AGE,
    BadFreezeMinAge = SANDPIPER_BAD_FREEZE_MIN_AGE,
    BadFirstXid = SANDPIPER_BAD_FIRST_XID,
    BadDeadLimit = SANDPIPER_BAD_DEAD_LIMIT,
    Busy = SANDPIPER_BUSY,
};

// The table refused a call and is as it was, or the commit of a transaction that had failed rolled it back (RolledBack).
class Refused : public std::runtime_error {
    std::uint32_t number;

public:
    explicit Refused(std::uint32_t it) : std::runtime_error(sandpiper_words(it)), number(it) {}
    explicit Refused(Status it) : Refused(static_cast<std::uint32_t>(it)) {}

    Status status() const noexcept { return number < SANDPIPER_BUSY ? static_cast<Status>(number) : Status::Busy; }
    // Of a Busy: the open session that has written the key.
    std::uint32_t session() const noexcept { return number < SANDPIPER_BUSY ? 0 : number - SANDPIPER_BUSY; }
    // Whether the whole transaction may succeed when it is done again.
    bool may_pass_later() const noexcept {
        return status() == Status::Busy || status() == Status::Conflict || status() == Status::Deadlock || status() == Status::RolledBack;
    }
};

// The status, where nothing was refused.
inline Status told(std::uint32_t status) {
    if (status >= SANDPIPER_NOT_OPEN) throw Refused(status);
    return static_cast<Status>(status);
}

struct Row {
    std::uint64_t key = 0;
    std::array<std::int64_t, 4> cols{};
    std::string body{};

    friend bool operator==(const Row &a, const Row &b) { return a.key == b.key && a.cols == b.cols && a.body == b.body; }
    friend bool operator!=(const Row &a, const Row &b) { return !(a == b); }
};

namespace detail {

inline Row row_of(const sandpiper_row &place) {
    Row row{place.key, {}, std::string(reinterpret_cast<const char *>(place.body), place.length)};
    for (std::size_t i = 0; i < 4; i++) row.cols[i] = place.cols[i];
    return row;
}

// (A body that is too long is cut by one byte past the most: the library refuses it as TooLarge, and reads no byte of it.)
inline void put(const Row &row, sandpiper_row &place) {
    place.key = row.key;
    for (std::size_t i = 0; i < 4; i++) place.cols[i] = row.cols[i];
    const bool fits = row.body.size() <= SANDPIPER_BODY;
    place.length = static_cast<std::uint16_t>(fits ? row.body.size() : SANDPIPER_BODY + 1);
    if (fits) std::memcpy(place.body, row.body.data(), row.body.size());
}

// What a session and its cursors share.
struct Transaction {
    std::shared_ptr<sandpiper> table;
    std::uint8_t number = 0;
    bool is_open = false;
};

} // namespace detail

class Session;

// Rows that a session reads, as they were when the cursor was opened. While it is open the session writes nothing.
class Cursor {
    std::shared_ptr<detail::Transaction> owner;
    std::vector<sandpiper_row> places;
    std::size_t at = 0, count = 0;
    bool is_open = false, keys_alone = false;

    friend class Session;
    Cursor(std::shared_ptr<detail::Transaction> of, std::size_t batch, bool keys)
        : owner(std::move(of)), places(batch), is_open(true), keys_alone(keys) {}

    // Whether there is a row at hand, or one more comes.
    bool fetch() {
        if (at < count) return true;
        if (!is_open) return false;
        if (!owner->is_open) throw Refused(Status::NotOpen);
        at = count = 0;
        if (told(sandpiper_next(owner->table.get(), owner->number, places.data(), places.size(), &count)) == Status::Rows) return true;
        close();
        return false;
    }

public:
    Cursor(Cursor &&other) noexcept
        : owner(std::move(other.owner)), places(std::move(other.places)), at(std::exchange(other.at, 0)),
          count(std::exchange(other.count, 0)), is_open(std::exchange(other.is_open, false)), keys_alone(other.keys_alone) {}
    Cursor(const Cursor &) = delete;
    Cursor &operator=(const Cursor &) = delete;
    Cursor &operator=(Cursor &&) = delete;
    ~Cursor() { close(); }

    // The next row, or none where nothing is left. Of a cursor over keys it has the key alone.
    std::optional<Row> next() {
        if (!fetch()) return std::nullopt;
        const sandpiper_row &place = places[at++];
        return keys_alone ? Row{place.key, {}, {}} : detail::row_of(place);
    }

    // Drops what was fetched, and lets the session write again. A cursor that is closed stays so.
    void close() noexcept {
        at = count = 0;
        if (std::exchange(is_open, false) && owner->is_open) sandpiper_close_cursor(owner->table.get(), owner->number);
    }

    // For `for (const Row &row : cursor)`, once.
    class Iterator {
        Cursor *cursor;
        std::optional<Row> row;

    public:
        explicit Iterator(Cursor *of) : cursor(of) {
            if (cursor) row = cursor->next();
        }
        const Row &operator*() const { return *row; }
        Iterator &operator++() {
            row = cursor->next();
            return *this;
        }
        bool operator!=(const Iterator &other) const { return row.has_value() != other.row.has_value(); }
    };
    Iterator begin() { return Iterator(this); }
    Iterator end() { return Iterator(nullptr); }
};

// A page as it was when it was taken, with what its session saw of it: it may be read on any thread, and after its table was closed.
class Ticket {
    sandpiper_ticket held{};

    friend class Session;
    Ticket() = default;

public:
    Ticket(Ticket &&other) noexcept : held(std::exchange(other.held, {})) {}
    Ticket &operator=(Ticket &&other) noexcept {
        std::swap(held, other.held);
        return *this;
    }
    Ticket(const Ticket &) = delete;
    Ticket &operator=(const Ticket &) = delete;
    ~Ticket() { close(); }

    // The rows, in the order of their slots.
    std::vector<Row> rows() {
        std::vector<sandpiper_row> places(SANDPIPER_PAGE_ROWS);
        std::size_t count = 0;
        told(sandpiper_ticket_rows(&held, places.data(), places.size(), &count));
        std::vector<Row> rows;
        for (std::size_t i = 0; i < count; i++) rows.push_back(detail::row_of(places[i]));
        return rows;
    }

    bool is_open() const noexcept { return held.is_taken; }
    void close() noexcept { sandpiper_close_ticket(&held); }
};

// An entry of a key: where it leads, what is in that slot, and the versions of the chain there, each with why a session sees it, or does not.
struct ShownEntry {
    sandpiper_place place;
    sandpiper_fate leads_to;
    std::vector<sandpiper_shown> versions;
};

// What a pruning of a page would do now.
struct Plan {
    std::uint64_t change;
    std::vector<sandpiper_action> actions;
};

// A transaction. At the end of its scope it is aborted, unless it has ended before.
class Session {
    std::shared_ptr<detail::Transaction> state;

    friend class Table;
    explicit Session(std::shared_ptr<detail::Transaction> it) : state(std::move(it)) {}

    detail::Transaction &ready() const {
        if (!state || !state->is_open) throw Refused(Status::NotOpen);
        return *state;
    }

    template <typename Call, typename... Arguments> Status ask(Call call, Arguments... arguments) const {
        detail::Transaction &it = ready();
        return told(call(it.table.get(), it.number, arguments...));
    }

    template <typename Call> Status write(Call call, const Row &row) {
        sandpiper_row place;
        detail::put(row, place);
        return ask(call, static_cast<const sandpiper_row *>(&place));
    }

    template <typename Call> std::vector<std::uint32_t> all(Call call) const {
        std::vector<std::uint32_t> ids;
        for (std::uint32_t id; ask(call, ids.size(), &id) == Status::Found;) ids.push_back(id);
        return ids;
    }

    template <typename Call, typename... Bounds> Cursor opened(std::size_t batch, bool keys, Call call, Bounds... bounds) {
        if (batch == 0) throw Refused(Status::NoPlace);
        ask(call, bounds...);
        return Cursor(state, batch, keys);
    }

public:
    Session(Session &&) noexcept = default;
    Session &operator=(Session &&other) noexcept {
        std::swap(state, other.state);
        return *this;
    }
    Session(const Session &) = delete;
    Session &operator=(const Session &) = delete;
    ~Session() {
        if (is_open()) sandpiper_abort(state->table.get(), state->number);
        if (state) state->is_open = false;
    }

    bool is_open() const noexcept { return state && state->is_open && state->table->is_open; }
    std::uint8_t number() const { return ready().number; }

    // Makes what was written part of the table. Throws RolledBack where the transaction had failed; it has ended then too.
    void commit() {
        const Status status = ask(sandpiper_commit);
        state->is_open = false;
        if (status != Status::Committed) throw Refused(status);
    }
    void abort() {
        ask(sandpiper_abort);
        state->is_open = false;
    }

    std::optional<Row> get(std::uint64_t key) const {
        sandpiper_row place;
        return ask(sandpiper_get, key, &place) == Status::Found ? std::optional<Row>(detail::row_of(place)) : std::nullopt;
    }
    void insert(const Row &row) { write(sandpiper_insert, row); }
    void update(const Row &row) { write(sandpiper_update, row); }
    void erase(std::uint64_t key) { ask(sandpiper_delete, key); }
    // Updates the row of the key, or else inserts it.
    void put(const Row &row) {
        try {
            update(row);
        } catch (const Refused &refused) {
            if (refused.status() != Status::NotThere) throw;
            insert(row);
        }
    }

    void savepoint() { ask(sandpiper_savepoint); }
    void rollback_to() { ask(sandpiper_rollback_to); }
    void release() { ask(sandpiper_release); }

    // All rows, page by page.
    Cursor rows(std::size_t batch = 64) { return opened(batch, false, sandpiper_open_heap); }
    // The rows with keys from low to high, both included, in ascending order.
    Cursor by_key(std::uint64_t low = 0, std::uint64_t high = UINT64_MAX, std::size_t batch = 64) {
        return opened(batch, false, sandpiper_open_by_key, low, high);
    }
    // The same by the values of a column, 0 to 3, that has an index.
    Cursor by_column(unsigned column, std::int64_t low = INT64_MIN, std::int64_t high = INT64_MAX, std::size_t batch = 64) {
        if (column > 3) throw Refused(Status::NoSuchIndex);
        return opened(batch, false, sandpiper_open_index, static_cast<std::uint8_t>(column + 1), low, high);
    }
    // The keys alone.
    Cursor keys(std::uint64_t low = 0, std::uint64_t high = UINT64_MAX, std::size_t batch = 64) {
        return opened(batch, true, sandpiper_open_keys, low, high);
    }

    // Why a statement of the session, begun now, reads the row of the key, or none: one version that is shown is seen, or none is.
    std::vector<ShownEntry> explain(std::uint64_t key) const {
        std::vector<ShownEntry> entries;
        sandpiper *table = ready().table.get();
        for (sandpiper_place place{}; told(sandpiper_next_entry(table, key, &place)) == Status::Found;) {
            ShownEntry entry{place, {}, {}};
            told(sandpiper_fate_of(table, place.page, place.slot, &entry.leads_to));
            sandpiper_shown shown;
            const sandpiper_place *at = &place;
            while (ask(sandpiper_explain, at, entry.versions.size(), &shown) == Status::Found) entry.versions.push_back(shown);
            entries.push_back(std::move(entry));
        }
        return entries;
    }
    // What the session is like now.
    sandpiper_session info() const {
        sandpiper_session it;
        ask(sandpiper_session_of, &it);
        return it;
    }
    // Its own ids, in the order of giving; and those that its snapshot lists.
    std::vector<std::uint32_t> ids() const { return all(sandpiper_own_id); }
    std::vector<std::uint32_t> listed_ids() const { return all(sandpiper_listed_id); }
    // Its own ids level by level, the oldest first: those of level n came since savepoint n.
    std::vector<std::vector<std::uint32_t>> ids_by_level() const {
        const auto mine = ids();
        std::vector<std::vector<std::uint32_t>> levels;
        std::size_t from, to = mine.size();
        while (ask(sandpiper_ids_at_savepoint, levels.size(), &from) == Status::Found) {
            levels.emplace_back(mine.begin() + from, mine.begin() + to);
            to = from;
        }
        levels.emplace_back(mine.begin(), mine.begin() + to);
        return {levels.rbegin(), levels.rend()};
    }

    // A page, counted from 0, as it is now, with what the session sees of it now.
    Ticket take_page(std::uint32_t page) const {
        Ticket ticket;
        ask(sandpiper_take_page, page, &ticket.held);
        return ticket;
    }
};

enum class Reads { BySnapshot, ByStatement };

class Table {
    std::shared_ptr<sandpiper> handle;

    sandpiper *ready() const {
        if (!handle) throw Refused(Status::NoEngine);
        return handle.get();
    }

public:
    explicit Table(const sandpiper_settings &settings = SANDPIPER_WIDEST) : handle(std::make_shared<sandpiper>()) {
        told(sandpiper_open(&settings, handle.get()));
    }
    Table(Table &&) noexcept = default;
    Table &operator=(Table &&other) noexcept {
        std::swap(handle, other.handle);
        return *this;
    }
    Table(const Table &) = delete;
    Table &operator=(const Table &) = delete;
    ~Table() { close(); }

    bool is_open() const noexcept { return handle && handle->is_open; }
    // Aborts what is open, and gives the memory back. A table that is closed stays so.
    void close() noexcept {
        if (handle) sandpiper_close(handle.get());
    }
    // The handle, for the calls of sandpipercot.h that have no method here.
    sandpiper *c_handle() const { return ready(); }

    // Opens a session of the lowest number that is free.
    Session begin(Reads reads = Reads::BySnapshot) {
        const std::uint64_t open = state().open_sessions;
        std::uint8_t number = 0;
        while (number < SANDPIPER_SESSIONS && open >> number & 1) number++;
        auto it = std::make_shared<detail::Transaction>();
        it->table = handle, it->number = number;
        const auto call = reads == Reads::BySnapshot ? sandpiper_begin : sandpiper_begin_read_committed;
        told(call(ready(), number));
        it->is_open = true;
        return Session(std::move(it));
    }

    sandpiper_state state() const {
        struct sandpiper_state it;
        told(sandpiper_state_of(ready(), &it));
        return it;
    }
    void create_index(unsigned column) { told(sandpiper_create_index(ready(), static_cast<std::uint8_t>(column > 255 ? 255 : column))); }
    void prune(std::uint32_t page) { told(sandpiper_prune(ready(), page)); }
    // The horizon, and who holds it back.
    sandpiper_horizon horizon() const {
        sandpiper_horizon it;
        told(sandpiper_horizon_of(ready(), &it));
        return it;
    }
    // What pruning would do now to a slot, counted from 1, of a page, counted from 0.
    sandpiper_fate fate(std::uint32_t page, std::uint16_t slot) const {
        sandpiper_fate it;
        told(sandpiper_fate_of(ready(), page, slot, &it));
        return it;
    }
    Plan plan(std::uint32_t page) const {
        Plan it{0, std::vector<sandpiper_action>(SANDPIPER_PAGE_ROWS)};
        std::size_t count = 0;
        told(sandpiper_plan_of(ready(), page, it.actions.data(), it.actions.size(), &count, &it.change));
        it.actions.resize(count);
        return it;
    }
    void apply(std::uint32_t page, const Plan &plan) {
        told(sandpiper_apply_plan(ready(), page, plan.change, plan.actions.data(), plan.actions.size()));
    }
    // What became of an id, and whose it is.
    sandpiper_id status_of(std::uint32_t id) const {
        sandpiper_id it;
        told(sandpiper_id_of(ready(), id, &it));
        return it;
    }
    // The vacuum that is running, if one is.
    std::optional<sandpiper_vacuum> vacuum_state() const {
        sandpiper_vacuum it;
        const std::uint32_t status = sandpiper_vacuum_of(ready(), &it);
        return status == SANDPIPER_NO_VACUUM ? std::nullopt : std::optional<sandpiper_vacuum>((told(status), it));
    }
    // A picture of the table as it is now, as SVG: of the pages of these numbers, or of all where none is named.
    std::string draw(const std::vector<std::uint32_t> &pages = {}) const {
        const std::uint32_t none = 0;
        std::string text(65536, ' ');
        for (std::size_t length;; text.resize(length)) {
            const auto *first = pages.empty() ? &none : pages.data();
            const std::uint32_t status = sandpiper_draw(ready(), first, pages.size(), text.data(), text.size(), &length);
            if (status == SANDPIPER_NO_PLACE) continue;
            told(status);
            text.resize(length);
            return text;
        }
    }
    // A whole vacuum, and the oldest id that is remembered after it.
    std::uint32_t vacuum(bool aggressive = false) {
        sandpiper_piece piece{};
        told(sandpiper_vacuum_begin(ready(), aggressive));
        while (told(sandpiper_vacuum_step(ready(), &piece)) == Status::Worked) continue;
        return piece.oldest;
    }
};

// Runs a transaction: begins a session, hands it to the function, and commits. After Conflict, Deadlock, Busy or RolledBack it is aborted and
// done again, up to so many times in all, with a wait that doubles; then what was refused last is thrown.
template <typename Function>
auto run(Table &table, Function function, int tries = 10, std::chrono::microseconds wait = std::chrono::milliseconds(1)) {
    for (;; wait *= 2) {
        try {
            Session session = table.begin();
            if constexpr (std::is_void_v<decltype(function(session))>) {
                function(session);
                if (session.is_open()) session.commit();
                return;
            } else {
                auto answer = function(session);
                if (session.is_open()) session.commit();
                return answer;
            }
        } catch (const Refused &refused) {
            if (!refused.may_pass_later() || --tries <= 0) throw;
        }
        std::this_thread::sleep_for(wait);
    }
}

} // namespace sandpipercot

#endif
