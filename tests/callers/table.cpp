// The library from C++: a table that ends with its scope, and a refusal as an exception.
#include <sandpipercot.h>

#include <cstdint>
#include <cstdio>
#include <stdexcept>
#include <string>
#include <vector>

struct Refused : std::runtime_error {
    std::uint32_t status;
    explicit Refused(std::uint32_t it) : std::runtime_error("refused: status " + std::to_string(it)), status(it) {}
};

static std::uint32_t told(std::uint32_t status) {
    if (status >= SANDPIPER_NOT_OPEN) throw Refused(status);
    return status;
}

class Table {
    sandpiper handle{};

public:
    explicit Table(const sandpiper_settings &settings) { told(sandpiper_open(&settings, &handle)); }
    Table(const Table &) = delete;
    Table &operator=(const Table &) = delete;
    Table(Table &&other) noexcept : handle(other.handle) { other.handle = {}; }
    ~Table() { sandpiper_close(&handle); }

    void begin(std::uint8_t session) { told(sandpiper_begin(&handle, session)); }
    bool commit(std::uint8_t session) { return told(sandpiper_commit(&handle, session)) == SANDPIPER_COMMITTED; }
    void insert(std::uint8_t session, const sandpiper_row &row) { told(sandpiper_insert(&handle, session, &row)); }
    void update(std::uint8_t session, const sandpiper_row &row) { told(sandpiper_update(&handle, session, &row)); }

    // A whole vacuum: the oldest id that is remembered after it.
    std::uint32_t vacuum(bool aggressive) {
        sandpiper_piece piece;
        told(sandpiper_vacuum_begin(&handle, aggressive));
        while (told(sandpiper_vacuum_step(&handle, &piece)) == SANDPIPER_WORKED) continue;
        return piece.oldest;
    }

    bool get(std::uint8_t session, std::uint64_t key, sandpiper_row &row) {
        return told(sandpiper_get(&handle, session, key, &row)) == SANDPIPER_FOUND;
    }

    std::vector<std::int64_t> column(std::uint8_t session, std::uint8_t index) {
        std::vector<std::int64_t> values;
        std::vector<sandpiper_row> rows(2);
        std::size_t count;
        told(sandpiper_open_index(&handle, session, index, INT64_MIN, INT64_MAX));
        while (told(sandpiper_next(&handle, session, rows.data(), rows.size(), &count)) == SANDPIPER_ROWS)
            for (std::size_t i = 0; i < count; i++) values.push_back(rows[i].cols[0]);
        told(sandpiper_close_cursor(&handle, session));
        return values;
    }
};

static void check(bool is, const char *what) {
    if (!is) throw std::logic_error(what);
}

int main() {
    const sandpiper_settings settings{64, 2144483648u, 0, 3, 4096, {true, false, false, false}};
    Table opened(settings);
    Table table(std::move(opened));
    sandpiper_row row{}, other{};
    table.begin(0);
    for (row.key = 1; row.key <= 5; row.key++) {
        row.cols[0] = -static_cast<std::int64_t>(row.key);
        table.insert(0, row);
    }
    check(table.commit(0), "the rows are committed");
    table.begin(0);
    table.begin(1);
    row.key = 3;
    row.cols[0] = 20;
    table.update(1, row);
    check(table.commit(1), "the update is committed");
    check(table.get(0, 3, other) && other.cols[0] == -3, "the older session keeps its view");
    check(table.column(0, 1) == std::vector<std::int64_t>{-5, -4, -3, -2, -1}, "also along an index");
    try {
        table.update(0, row);
        check(false, "the first committer wins");
    } catch (const Refused &refused) {
        check(refused.status == SANDPIPER_CONFLICT, "by a conflict");
    }
    check(!table.commit(0), "which rolls back");
    check(table.vacuum(false) == 3 && table.vacuum(true) == 5, "ids 3 and 4 were given, and are forgotten by an aggressive vacuum");
    table.begin(0);
    check(table.column(0, 1) == std::vector<std::int64_t>{-5, -4, -2, -1, 20}, "a new session reads the update");
    try {
        Table(sandpiper_settings{64, 0, 0, 3, 4096, {}});
        check(false, "a bad setting is refused");
    } catch (const Refused &refused) {
        check(refused.status == SANDPIPER_BAD_STOP_AGE, "by its name");
    }
    std::puts("all right");
}
