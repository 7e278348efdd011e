"""The workloads of the comparison: each as lines of a script for `heapsh run`, and as statements of SQL that do the same.

A workload has a table that is loaded first, and operations that are measured. Each yields pairs of a text of lines and a text of SQL.
Transactions hold TRANSACTION operations where nothing else is said.
"""

import random

TRANSACTION = 50
COLUMNS = "key INTEGER PRIMARY KEY, c0 INTEGER, c1 INTEGER, c2 INTEGER, c3 INTEGER, body TEXT"
HOT_ROWS = 100
SCANNED = 100
SESSIONS = 64


def row(key, c3=0):
    return f"{key} {key} {-key} 0 {c3} -"


def values(key, c3=0):
    return f"({key},{key},{-key},0,{c3},'')"


def insert(session, key):
    return f"insert {session} {row(key)}\n", f"INSERT INTO heap VALUES{values(key)};\n"


def update(session, key, c3):
    return f"update {session} {row(key, c3)}\n", f"UPDATE heap SET c0={key},c1={-key},c2=0,c3={c3},body='' WHERE key={key};\n"


def get(session, key):
    return f"get {session} {key}\n", f"SELECT * FROM heap WHERE key={key};\n"


def scan(session, low):
    high = low + SCANNED - 1
    lines = f"openindex {session} 1 {low} {high}\nnext {session} {SCANNED}\nclose {session}\n"
    return lines, f"SELECT * FROM heap WHERE c0>={low} AND c0<={high} ORDER BY c0, key LIMIT {SCANNED};\n"


def in_transactions(operations, size=TRANSACTION, session=0):
    held = 0
    for operation in operations:
        if held == 0:
            yield f"begin {session}\n", "BEGIN;\n"
        yield operation
        held += 1
        if held == size:
            yield f"commit {session}\n", "COMMIT;\n"
            held = 0
    if held > 0:
        yield f"commit {session}\n", "COMMIT;\n"


def keys(rows, count):
    rng = random.Random(rows)
    return (rng.randrange(rows) for _ in range(count))


def loaded(rows):
    """The rows in ascending order of keys."""
    return in_transactions((insert(0, key) for key in range(rows)), 1000)


def spaced(rows):
    """The rows, with as much room again on each page: rows between them are deleted, and their pages pruned. SQL needs none of it."""
    for pair in in_transactions((insert(0, key) for key in range(rows)), 1000):
        lines, sql = pair
        yield lines + fillers(lines, rows), sql
    for first in range(0, rows, 1000):
        deletes = "".join(f"delete 0 {rows + key}\n" for key in range(first, min(first + 1000, rows)))
        yield f"begin 0\n{deletes}commit 0\n", ""
    yield "".join(f"prune {page}\n" for page in range(2 * rows // 100 + 1)), ""


def fillers(lines, rows):
    words = lines.split()
    return f"insert 0 {row(rows + int(words[2]))}\n" if words[0] == "insert" else ""


def inserts(rows, count):
    return in_transactions(insert(0, rows + key) for key in range(count))


def gets(rows, count):
    return in_transactions(get(0, key) for key in keys(rows, count))


def hot_updates(rows, count):
    return in_transactions((update(0, key, turn) for turn, key in enumerate(keys(rows, count))), 1)


def pruned_updates(rows, count):
    few = (turn * 17 % min(rows, HOT_ROWS) for turn in range(count))
    return in_transactions((update(0, key, turn) for turn, key in enumerate(few)), 1)


def scans(rows, count):
    return in_transactions(scan(0, key) for key in keys(max(1, rows - SCANNED), count))


def many_sessions(rows, count):
    """As many sessions as there may be, open at once, take turns. SQL gets the same keys, one session's after another's."""
    rng = random.Random(rows)
    each = max(1, count // SESSIONS)
    picks = [[rng.randrange(rows) for _ in range(each)] for _ in range(SESSIONS)]
    yield "".join(f"begin {s}\n" for s in range(SESSIONS)), ""
    for turn in range(each):
        yield "".join(get(s, picks[s][turn])[0] for s in range(SESSIONS)), ""
    yield "".join(f"commit {s}\n" for s in range(SESSIONS)), ""
    for s in range(SESSIONS):
        for _, sql in in_transactions(get(s, key) for key in picks[s]):
            yield "", sql


# name: the columns that have an index, the table, the operations
WORKLOADS = {
    "inserts": ("0000", loaded, inserts),
    "gets by key": ("0000", loaded, gets),
    "HOT updates": ("0000", spaced, hot_updates),
    "updates with pruning": ("0000", spaced, pruned_updates),
    "updates on full pages": ("0000", loaded, hot_updates),
    "index scans of 100 rows": ("1000", loaded, scans),
    "64 sessions": ("0000", loaded, many_sessions),
}


def write(name, rows, count, script, sql, loads=True, kind="TABLE"):
    """Writes so many operations to both files, after those that load the table."""
    indexed, table, operations = WORKLOADS[name]
    if loads:
        script.write(f"heap 65536 2144483648 0 3 64 {indexed}\n")
        sql.write(f"DROP TABLE IF EXISTS heap;\nCREATE {kind} heap({COLUMNS});\n")
        if indexed[0] == "1":
            sql.write("CREATE INDEX by_c0 ON heap(c0);\n")
        for lines, statements in table(rows):
            script.write(lines)
            sql.write(statements)
    if count > 0:
        for lines, statements in operations(rows, count):
            script.write(lines)
            sql.write(statements)
