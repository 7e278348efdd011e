// Two sessions want to write one key, and only the one that commits first gets its way. Then a scan of what is left.
//     c++ first_committer_wins.cpp $(pkg-config --cflags --libs sandpipercot)
#include <sandpipercot.h>

#include <functional>
#include <iostream>
#include <new>
#include <string>
#include <vector>

// A table that ends with its scope.
struct Table {
    sandpiper handle{};

    Table() {
        const sandpiper_settings settings = SANDPIPER_WIDEST;
        if (sandpiper_open(&settings, &handle) != SANDPIPER_DONE) throw std::bad_alloc();
    }
    Table(const Table &) = delete;
    Table &operator=(const Table &) = delete;
    ~Table() { sandpiper_close(&handle); }

    // Hands each row that the session reads to `see`.
    void scan(std::uint8_t session, const std::function<void(const sandpiper_row &)> &see) {
        std::vector<sandpiper_row> rows(8);
        std::size_t count;
        sandpiper_open_heap(&handle, session);
        while (sandpiper_next(&handle, session, rows.data(), rows.size(), &count) == SANDPIPER_ROWS)
            for (std::size_t i = 0; i < count; i++) see(rows[i]);
        sandpiper_close_cursor(&handle, session);
    }
};

static std::string words_of(std::uint32_t status) {
    switch (status) {
    case SANDPIPER_DONE: return "done";
    case SANDPIPER_COMMITTED: return "committed";
    case SANDPIPER_ROLLED_BACK: return "rolled back";
    case SANDPIPER_CONFLICT: return "conflict";
    case SANDPIPER_FAILED: return "failed";
    default: return status >= SANDPIPER_BUSY ? "busy" : "refused";
    }
}

int main() {
    Table table;
    sandpiper_row ten{1, {10}, 0, {}}, twenty{1, {20}, 0, {}}, other{2, {20}, 0, {}}, row{};
    const auto say = [](const char *what, std::uint32_t status) { std::cout << what << ": " << words_of(status) << '\n'; };
    sandpiper_begin(&table.handle, 0);
    sandpiper_begin(&table.handle, 1);
    say("session 0 inserts key 1", sandpiper_insert(&table.handle, 0, &ten));
    say("session 1 inserts key 1", sandpiper_insert(&table.handle, 1, &twenty)); // an open session has written the key
    say("session 1 inserts key 2", sandpiper_insert(&table.handle, 1, &other));
    say("session 0 commits", sandpiper_commit(&table.handle, 0));
    say("session 1 inserts key 1", sandpiper_insert(&table.handle, 1, &twenty)); // it was committed: session 1 has failed
    say("session 1 reads key 2", sandpiper_get(&table.handle, 1, 2, &row));
    say("session 1 commits", sandpiper_commit(&table.handle, 1)); // which takes back what it wrote
    sandpiper_begin(&table.handle, 1);
    table.scan(1, [](const sandpiper_row &it) { std::cout << "row " << it.key << ": " << it.cols[0] << '\n'; });
}
