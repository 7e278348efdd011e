/* Two sessions want to write one key, and only the one that commits first gets its way. Then a scan of what is left.
 *     cc first_committer_wins.c $(pkg-config --cflags --libs sandpipercot) */
#include <sandpipercot.h>

#include <inttypes.h>
#include <stdio.h>

static const char *words_of(uint32_t status) {
    switch (status) {
    case SANDPIPER_DONE: return "done";
    case SANDPIPER_COMMITTED: return "committed";
    case SANDPIPER_ROLLED_BACK: return "rolled back";
    case SANDPIPER_CONFLICT: return "conflict";
    case SANDPIPER_FAILED: return "failed";
    default: return status >= SANDPIPER_BUSY ? "busy" : "refused";
    }
}

static void say(const char *what, uint32_t status) { printf("%s: %s\n", what, words_of(status)); }

int main(void) {
    struct sandpiper table = {0};
    const struct sandpiper_settings settings = SANDPIPER_WIDEST;
    const struct sandpiper_row ten = {.key = 1, .cols = {10}}, twenty = {.key = 1, .cols = {20}}, other = {.key = 2, .cols = {20}};
    struct sandpiper_row row, rows[8];
    size_t count;

    if (sandpiper_open(&settings, &table) != SANDPIPER_DONE) return 1;
    sandpiper_begin(&table, 0);
    sandpiper_begin(&table, 1);
    say("session 0 inserts key 1", sandpiper_insert(&table, 0, &ten));
    /* an open session has written the key: session 1 stays usable, and writes another */
    say("session 1 inserts key 1", sandpiper_insert(&table, 1, &twenty));
    say("session 1 inserts key 2", sandpiper_insert(&table, 1, &other));
    say("session 0 commits", sandpiper_commit(&table, 0));
    /* key 1 was committed after session 1 had begun: it has failed, and its commit takes back what it wrote */
    say("session 1 inserts key 1", sandpiper_insert(&table, 1, &twenty));
    say("session 1 reads key 2", sandpiper_get(&table, 1, 2, &row));
    say("session 1 commits", sandpiper_commit(&table, 1));

    sandpiper_begin(&table, 1);
    sandpiper_open_heap(&table, 1);
    while (sandpiper_next(&table, 1, rows, 8, &count) == SANDPIPER_ROWS)
        for (size_t i = 0; i < count; i++) printf("row %" PRIu64 ": %" PRId64 "\n", rows[i].key, rows[i].cols[0]);
    sandpiper_commit(&table, 1);
    sandpiper_close(&table);
    return 0;
}
