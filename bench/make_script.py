"""Writes a script for `heapsh run`, and the same steps in SQL for the command-line shell of SQLite.

    python3 make_script.py LINES SCRIPT_FILE SQL_FILE

One session is open at a time, since an SQLite connection has no more. Sixty rows are inserted in all, spread over the script, so
that one page holds them; the rest are gets in sessions of fifty, each between a begin and a commit.
"""

import random
import sys

ROWS = 60
GETS_IN_A_SESSION = 50


def insert(session, key):
    columns = [key * 7, -key, 0, 123456789]
    # Letters, since SQLite writes a BLOB as it is.
    body = f"{0x41 + key % 26:02x}" * 8
    texts = " ".join(str(column) for column in columns)
    values = ",".join(str(column) for column in columns)
    return (
        f"insert {session} {key} {texts} {body}\n",
        f"INSERT INTO heap VALUES({key},{values},x'{body}');\n",
    )


def steps(lines):
    """The lines of the script behind the first, each with its SQL."""
    rng = random.Random(1)
    written = 0
    sessions = 0
    inserted = 0
    while written < lines:
        session = sessions % 64
        sessions += 1
        yield f"begin {session}\n", "BEGIN;\n"
        written += 1
        if inserted < ROWS and inserted * lines <= written * ROWS:
            inserted += 1
            yield insert(session, inserted)
            written += 1
        for _ in range(GETS_IN_A_SESSION):
            key = rng.randint(1, ROWS)
            yield f"get {session} {key}\n", f"SELECT * FROM heap WHERE key={key};\n"
            written += 1
        yield f"commit {session}\n", "COMMIT;\n"
        written += 1


def main():
    lines = int(sys.argv[1])
    with open(sys.argv[2], "w") as script, open(sys.argv[3], "w") as sql:
        script.write("heap 1 1000000 0 3 64 0000\n")
        sql.write("CREATE TABLE heap(key INTEGER PRIMARY KEY, c0 INTEGER, c1 INTEGER, c2 INTEGER, c3 INTEGER, body BLOB);\n")
        for line, statement in steps(lines):
            script.write(line)
            sql.write(statement)


if __name__ == "__main__":
    main()
