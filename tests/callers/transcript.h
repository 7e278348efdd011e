/* Writes what a table was asked and answered as a transcript (docs/judging.md): heapjudge says of it whether the history allows it. So what
 * a program is answered is judged by more than the library itself. */
#ifndef TRANSCRIPT_H
#define TRANSCRIPT_H

#include "checks.h"

static FILE *transcript; /* none is written where it is null */

/* The refusals of a step, with number and name as a script has them. */
static const struct {
    uint32_t status;
    const char *told;
} refusals[] = {
    {SANDPIPER_NOT_OPEN, "1 NotOpen"},           {SANDPIPER_ALREADY_OPEN, "2 AlreadyOpen"},
    {SANDPIPER_FAILED, "3 Failed"},              {SANDPIPER_ALREADY_THERE, "4 AlreadyThere"},
    {SANDPIPER_NOT_THERE, "5 NotThere"},         {SANDPIPER_CONFLICT, "6 Conflict"},
    {SANDPIPER_DEADLOCK, "8 Deadlock"},          {SANDPIPER_CURSOR_OPEN, "9 CursorOpen"},
    {SANDPIPER_NO_CURSOR, "10 NoCursor"},        {SANDPIPER_TOO_DEEP, "11 TooDeep"},
    {SANDPIPER_NO_SAVEPOINT, "12 NoSavepoint"},  {SANDPIPER_TOO_LARGE, "13 TooLarge"},
    {SANDPIPER_NO_ROOM, "14 NoRoom"},            {SANDPIPER_NEEDS_FREEZE, "15 NeedsFreeze"},
    {SANDPIPER_NO_MEMORY, "16 NoMemory"},        {SANDPIPER_VACUUM_RUNNING, "17 VacuumRunning"},
    {SANDPIPER_NO_VACUUM, "18 NoVacuum"},        {SANDPIPER_NO_SUCH_PAGE, "19 NoSuchPage"},
    {SANDPIPER_NO_SUCH_INDEX, "20 NoSuchIndex"}, {SANDPIPER_STALE, "21 Stale"},
    {SANDPIPER_INDEX_TOO_NEW, "22 IndexTooNew"}, {SANDPIPER_NO_SUCH_SESSION, "23 NoSuchSession"},
    {SANDPIPER_BAD_BOUNDS, "24 BadBounds"},      {SANDPIPER_INDEX_BUSY, "25 IndexBusy"},
};

static void write_refusal(uint32_t status) {
    size_t at = 0, count = sizeof refusals / sizeof *refusals;
    if (status >= SANDPIPER_BUSY) {
        fprintf(transcript, "error 7 Busy %u\n", (unsigned)(status - SANDPIPER_BUSY));
        return;
    }
    while (at < count && refusals[at].status != status) at++;
    CHECK(at < count);
    fprintf(transcript, "error %s\n", refusals[at].told);
}

static void write_settings(const struct sandpiper_settings *s) {
    fprintf(transcript, "heap %u %u %u %u %u ", s->max_pages, s->stop_age, s->freeze_min_age, s->first_xid, s->dead_limit);
    for (int c = 0; c < 4; c++) fputc(s->indexed[c] ? '1' : '0', transcript);
    fputc('\n', transcript);
}

/* Key, columns and body, with which a line ends. */
static void write_row(const struct sandpiper_row *row) {
    fprintf(transcript, "%llu", (unsigned long long)row->key);
    for (int c = 0; c < 4; c++) fprintf(transcript, " %lld", (long long)row->cols[c]);
    fputs(row->length ? " " : " -", transcript);
    for (int i = 0; i < row->length; i++) fprintf(transcript, "%02x", (unsigned)row->body[i]);
    fputc('\n', transcript);
}

static void write_rows(const struct sandpiper_row *rows, size_t count) {
    fprintf(transcript, "rows %zu\n", count);
    for (size_t i = 0; i < count; i++) {
        fputs("row ", transcript);
        write_row(rows + i);
    }
}

/* Of rows of which a cursor over keys has written the keys alone. */
static void write_keys(const struct sandpiper_row *rows, size_t count) {
    fprintf(transcript, "keys %zu\n", count);
    for (size_t i = 0; i < count; i++) fprintf(transcript, "key %llu\n", (unsigned long long)rows[i].key);
}

/* What a step of a vacuum did. */
static void write_piece(const struct sandpiper_piece *piece) {
    static const char *const verbs[] = {"ended", "heap", "index", "free"};
    CHECK(piece->kind <= SANDPIPER_FREED_SLOTS);
    fprintf(transcript, "%s %u\n", verbs[piece->kind], piece->kind == SANDPIPER_NO_PIECE ? piece->oldest : piece->number);
}

#endif
