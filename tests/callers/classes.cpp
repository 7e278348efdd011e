// The classes of sandpipercot.hpp: a bank, scans, a retry, and what a program may get wrong.
#include <sandpipercot.hpp>

#include <algorithm>
#include <cstdio>
#include <fstream>
#include <iterator>
#include <type_traits>

using namespace sandpipercot;

static_assert(!std::is_copy_constructible_v<Table> && !std::is_copy_constructible_v<Session> && !std::is_copy_constructible_v<Cursor>);
static_assert(!std::is_copy_constructible_v<Ticket> && !std::is_copy_assignable_v<Table> && !std::is_copy_assignable_v<Ticket>);

#define CHECK(is)                                                                                                                          \
    do {                                                                                                                                   \
        if (!(is)) throw std::logic_error("not so: " #is);                                                                                 \
    } while (0)

template <typename Call> static Status refused_as(Call call) {
    try {
        call();
    } catch (const Refused &refused) {
        return refused.status();
    }
    return Status::Done;
}

static std::vector<std::uint64_t> keys_of(Cursor cursor) {
    std::vector<std::uint64_t> keys;
    for (const Row &row : cursor) keys.push_back(row.key);
    return keys;
}

static sandpiper_settings with_index() {
    sandpiper_settings settings = SANDPIPER_WIDEST;
    settings.indexed[0] = true;
    return settings;
}

static void check_rows() {
    Table table(with_index());
    Session session = table.begin();
    const Row widest{UINT64_MAX, {INT64_MAX, INT64_MIN, 0, -1}, std::string(1024, '\xff')};
    session.insert(widest);
    CHECK(session.get(UINT64_MAX) == widest && !session.get(1));
    for (std::uint64_t key = 0; key < 100; key++) session.insert({key, {-static_cast<std::int64_t>(key), 0, 0, 0}, "row"});
    CHECK(refused_as([&] { session.insert({200, {}, std::string(1025, 'x')}); }) == Status::TooLarge);
    CHECK(refused_as([&] { session.insert({200, {}, std::string(65536 + 5, 'x')}); }) == Status::TooLarge);
    CHECK(refused_as([&] { session.insert({5, {}, ""}); }) == Status::AlreadyThere);
    session.put({5, {-5, 0, 0, 0}, "put"}), session.put({100, {-100, 0, 0, 0}, "put"});
    CHECK(session.get(5)->body == "put" && session.get(100)->body == "put");
    session.erase(100);
    for (std::size_t batch : {1, 3, 64}) {
        CHECK((keys_of(session.by_key(7, 9, batch)) == std::vector<std::uint64_t>{7, 8, 9}));
        CHECK((keys_of(session.by_column(0, -9, -7, batch)) == std::vector<std::uint64_t>{9, 8, 7}));
        CHECK((keys_of(session.keys(98, UINT64_MAX, batch)) == std::vector<std::uint64_t>{98, 99, UINT64_MAX}));
        CHECK(keys_of(session.rows(batch)).size() == 101);
    }
    CHECK(refused_as([&] { session.rows(0); }) == Status::NoPlace);
    CHECK(refused_as([&] { session.by_column(4); }) == Status::NoSuchIndex && refused_as([&] { session.by_column(255); }) == Status::NoSuchIndex);
    CHECK(refused_as([&] { session.by_key(1, 0); }) == Status::BadBounds);
    {
        Cursor left = session.by_key();
        CHECK(left.next()->key == 0 && session.get(7));
        CHECK(refused_as([&] { session.erase(7); }) == Status::CursorOpen);
    }
    session.savepoint();
    session.erase(7);
    session.rollback_to();
    session.release();
    CHECK(session.get(7));
    session.commit();
    CHECK(table.vacuum() == 3 && table.vacuum(true) > 3);
}

// Two transfers in turn: the older one is refused, and is done again. The total stays.
static void check_bank() {
    Table bank;
    run(bank, [](Session &session) {
        for (std::uint64_t account = 0; account < 10; account++) session.insert({account, {100, 0, 0, 0}, ""});
    });
    auto transfer = [](Session &session, std::uint64_t from, std::uint64_t to, std::int64_t amount) {
        Row a = *session.get(from), b = *session.get(to);
        a.cols[0] -= amount, b.cols[0] += amount;
        session.update(a), session.update(b);
    };
    int tries = 0;
    const std::int64_t left = run(bank, [&](Session &session) {
        const Row before = *session.get(1);
        if (tries++ == 0) {
            Session other = bank.begin();
            transfer(other, 1, 2, 30);
            other.commit();
        }
        transfer(session, 1, 3, 20);
        return before.cols[0] - 20;
    });
    CHECK(tries == 2 && left == 50);
    // a session that holds the row all along: after so many tries the refusal comes through, and nothing is left open
    Session holder = bank.begin();
    transfer(holder, 4, 5, 1);
    tries = 0;
    const auto blocked = [&](Session &session) { tries++, transfer(session, 4, 6, 1); };
    CHECK(refused_as([&] { run(bank, blocked, 3, std::chrono::microseconds(1)); }) == Status::Busy && tries == 3);
    try {
        Session session = bank.begin();
        blocked(session);
    } catch (const Refused &refused) {
        CHECK(refused.session() == holder.number() && std::string_view(refused.what()) == sandpiper_words(SANDPIPER_BUSY));
    }
    holder.abort();
    CHECK(bank.state().open_sessions == 0);
    // what is no such refusal comes through at once
    tries = 0;
    CHECK(refused_as([&] { run(bank, [&](Session &session) { tries++, session.erase(99); }); }) == Status::NotThere && tries == 1);
    Session reader = bank.begin(Reads::ByStatement);
    std::int64_t total = 0;
    for (const Row &row : reader.by_key()) total += row.cols[0];
    CHECK(total == 1000 && reader.get(1)->cols[0] == 50);
}

static void check_ends() {
    Table table;
    {
        Session session = table.begin();
        session.insert({1, {}, "lost"});
    }
    CHECK(table.state().open_sessions == 0 && !table.begin().get(1));
    // a failed transaction: its commit says so
    Session old = table.begin();
    CHECK(!old.get(1));
    run(table, [](Session &session) { session.insert({1, {}, "first"}); });
    CHECK(refused_as([&] { old.insert({1, {}, "second"}); }) == Status::Conflict);
    CHECK(refused_as([&] { old.commit(); }) == Status::RolledBack && !old.is_open());
    CHECK(refused_as([&] { old.commit(); }) == Status::NotOpen && refused_as([&] { old.get(1); }) == Status::NotOpen);
    // a cursor of a session that has ended closes none of the next session's, which has its number
    Session first = table.begin();
    Cursor stale = first.by_key();
    first.commit();
    Session second = table.begin();
    Cursor open = second.by_key();
    CHECK(second.number() == 0 && refused_as([&] { stale.next(); }) == Status::NotOpen);
    stale.close();
    CHECK(refused_as([&] { stale.next(); }) == Status::Done && open.next()->body == "first" && !open.next());
    {
        Cursor one = second.by_key();
        one.close();
        Cursor two = second.by_key();
        one.close();
        CHECK(two.next().has_value());
    }
    second.erase(1);
    Session by_snapshot = table.begin(), by_statement = table.begin(Reads::ByStatement);
    second.commit();
    CHECK(by_snapshot.get(1) && !by_statement.get(1));
}

static void check_moves() {
    Table table;
    Session session = table.begin();
    session.insert({1, {}, "moved"});
    Table there(std::move(table));
    CHECK(there.is_open() && !table.is_open() && session.get(1)->body == "moved");
    CHECK(refused_as([&] { table.begin(); }) == Status::NoEngine && refused_as([&] { table.vacuum(); }) == Status::NoEngine);
    table.close();
    Session other(std::move(session));
    CHECK(!session.is_open() && refused_as([&] { session.get(1); }) == Status::NotOpen);
    CHECK(refused_as([&] { session.commit(); }) == Status::NotOpen && other.get(1));
    other.insert({2, {}, "moved"});
    Cursor cursor = other.by_key();
    CHECK(cursor.next()->key == 1);
    Cursor taken(std::move(cursor));
    CHECK(!cursor.next() && taken.next()->key == 2);
    cursor.close();
    CHECK(!taken.next());
    other.erase(2);
    Ticket ticket = other.take_page(0);
    Ticket kept(std::move(ticket));
    CHECK(!ticket.is_open() && kept.is_open() && refused_as([&] { ticket.rows(); }) == Status::NoTicket);
    CHECK(refused_as([&] { other.take_page(1); }) == Status::NoSuchPage);
    Table another;
    another = std::move(there);
    CHECK(other.get(1) && another.state().open_sessions == 1);
    // what belongs to a table that was closed says so, and the ticket stays
    Cursor last = other.by_key();
    another.close();
    CHECK(refused_as([&] { other.get(1); }) == Status::NoEngine && refused_as([&] { last.next(); }) == Status::NoEngine);
    CHECK(refused_as([&] { other.commit(); }) == Status::NoEngine && refused_as([&] { another.begin(); }) == Status::NoEngine);
    CHECK(!other.is_open() && kept.rows() == (std::vector<Row>{{1, {}, "moved"}}));
}

static void check_outliving() {
    std::optional<Session> session;
    std::optional<Cursor> cursor;
    {
        Table table;
        session.emplace(table.begin());
        session->insert({1, {}, ""});
        cursor.emplace(session->keys());
    }
    CHECK(!session->is_open() && refused_as([&] { session->get(1); }) == Status::NoEngine);
    CHECK(refused_as([&] { cursor->next(); }) == Status::NoEngine);
    sandpiper_settings settings = SANDPIPER_WIDEST;
    settings.stop_age = 0;
    CHECK(refused_as([&] { Table refused(settings); }) == Status::BadStopAge);
    Table full;
    std::vector<Session> sessions;
    for (int i = 0; i < SANDPIPER_SESSIONS; i++) sessions.push_back(full.begin());
    CHECK(refused_as([&] { full.begin(); }) == Status::NoSuchSession);
    sessions.erase(sessions.begin() + 5);
    CHECK(full.begin().number() == 5);
}

// The case of tests/looks/cases/older_reader: key 1 was written by 3, 4 and 5, of which the reader sees the first alone.
static void check_looks() {
    Table table;
    auto write = [&](std::int64_t value) { run(table, [&](Session &session) { session.put({1, {value, 0, 0, 0}, ""}); }); };
    write(5);
    std::optional<Session> reader = table.begin();
    write(6), write(7);
    const std::vector<ShownEntry> entries = reader->explain(1);
    CHECK(entries.size() == 1 && entries[0].place.slot == 1 && entries[0].leads_to.kind == SANDPIPER_STAYS_DELETED);
    const std::vector<sandpiper_shown> &versions = entries[0].versions;
    CHECK(versions.size() == 3 && versions[0].is_seen && !versions[1].is_seen && !versions[2].is_seen);
    CHECK(versions[0].maker.id == 3 && versions[0].maker.reason == SANDPIPER_BEFORE && versions[0].maker.limit == 4);
    CHECK(versions[0].deleter.id == 4 && versions[0].deleter.reason == SANDPIPER_NOT_BEFORE && versions[2].deleter.id == 0);
    CHECK(reader->explain(2).empty() && reader->ids().empty() && reader->listed_ids().empty());
    const sandpiper_session info = reader->info();
    CHECK(info.snapshot.is_kept && info.snapshot.xmin == 4 && info.snapshot.xmax == 4 && !info.has_failed && !info.is_waiting);
    CHECK(table.horizon().id == 4 && table.horizon().holder == SANDPIPER_BY_SNAPSHOT && table.horizon().session == 0);
    CHECK(table.fate(0, 3).kind == SANDPIPER_STAYS && table.fate(0, 9).kind == SANDPIPER_NO_SLOT && table.plan(0).actions.empty());
    CHECK(refused_as([&] { table.fate(1, 1); }) == Status::NoSuchPage && refused_as([&] { table.plan(1); }) == Status::NoSuchPage);
    Session writer = table.begin();
    writer.insert({2, {}, ""});
    CHECK(writer.ids() == std::vector<std::uint32_t>{6} && table.status_of(6).is_owned && table.status_of(6).session == 1);
    CHECK(table.begin().listed_ids() == std::vector<std::uint32_t>{6});
    const std::vector<std::vector<std::uint32_t>> of_levels = {{6}, {7, 8}};
    writer.savepoint(), writer.savepoint(), writer.insert({3, {}, ""}), writer.release();
    CHECK(writer.ids_by_level() == of_levels);
    writer.abort(), reader.reset();
    const Plan plan = table.plan(0);
    CHECK(plan.actions.size() == 4 && plan.actions[0].kind == SANDPIPER_LEAD && plan.actions[0].target == 3);
    table.apply(0, plan);
    CHECK(table.fate(0, 1).kind == SANDPIPER_REDIRECT_SLOT && refused_as([&] { table.apply(0, plan); }) == Status::Stale);
    CHECK(!table.vacuum_state());
    CHECK(sandpiper_vacuum_begin(table.c_handle(), true) == SANDPIPER_DONE && table.vacuum_state()->mode == 2);
    CHECK(refused_as([&] { writer.explain(1); }) == Status::NotOpen);
    table.close();
    CHECK(refused_as([&] { table.horizon(); }) == Status::NoEngine && refused_as([&] { table.vacuum_state(); }) == Status::NoEngine);
}

// The steps of examples/horizon.script up to its first pruning, whose picture is kept in docs/horizon.svg.
static void check_pictures(const char *kept) {
    Table table;
    auto write = [&](Session &session, std::int64_t value) { session.put({1, {value, 0, 0, 0}, ""}), session.commit(); };
    Session first = table.begin();
    write(first, 5);
    Session writer = table.begin(), reader = table.begin();
    write(writer, 6);
    writer = table.begin(), write(writer, 7);
    table.prune(0);
    std::ifstream file(kept);
    const std::string whole(std::istreambuf_iterator<char>(file), {});
    CHECK(reader.number() == 1 && !whole.empty() && table.draw() == whole && table.draw({0}) == whole);
    CHECK(refused_as([&] { table.draw({0, 1}); }) == Status::NoSuchPage);
    CHECK(refused_as([&] { table.draw(std::vector<std::uint32_t>(SANDPIPER_PICTURE_PAGES + 1)); }) == Status::TooManyPages);
    // (longer than the room that it has at first)
    const std::string often = table.draw(std::vector<std::uint32_t>(SANDPIPER_PICTURE_PAGES));
    CHECK(often.size() > 65536 && often.substr(often.size() - 6) == "</svg>");
    reader.abort(), table.close();
    CHECK(refused_as([&] { table.draw(); }) == Status::NoEngine);
}

int main(int, char **words) {
    check_pictures(words[1]);
    check_looks();
    check_rows();
    check_bank();
    check_ends();
    check_moves();
    check_outliving();
    std::puts("all right");
}
