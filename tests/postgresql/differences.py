#!/usr/bin/env python3
"""Where docs/postgresql.md says that a session is answered otherwise, asks both: differences.py HEAPSH [FOLDER OF POSTGRESQL'S PROGRAMS]

It runs a server of its own (server.py). Each case is a list of steps: a session, what `psql` is told, what PostgreSQL answers, the line of
the script, and what the program answers. PostgreSQL's answer is `ok`, the rows of a query, the SQLSTATE of an error, or `waits`: then the
answer that comes later stands at the step by which it comes, as `1: ok`. Nothing else runs these cases: a server is no part of what the
gate needs.
"""
import re
import subprocess
import sys

from server import Client, server

BEGIN = "BEGIN ISOLATION LEVEL REPEATABLE READ; SELECT"
BY_STATEMENT = "BEGIN"
# key 1 has the value 5 and key 2 the value 6 when a case begins; each script begins likewise
FIRST = ["heap 4 1000 0 3 64 0000", "begin 9", "insert 9 1 5 0 0 0 -", "insert 9 2 6 0 0 0 -", "commit 9"]


def insert(key):
    return f"INSERT INTO t VALUES ({key}, 7)"


def update(key, value=7):
    return f"UPDATE t SET c = {value} WHERE k = {key}"


def delete(key):
    return f"DELETE FROM t WHERE k = {key}"


def read(key):
    return f"SELECT c FROM t WHERE k = {key} ORDER BY c"


CASES = {
    "an insert of a key that is there": [
        (0, BEGIN, "ok", "begin 0", "ok"),
        (0, insert(1), "23505", "insert 0 1 7 0 0 0 -", "error 4 AlreadyThere"),
        (0, read(2), "25P02", "get 0 2", "row 2 6 0 0 0 -"),
    ],
    "an insert of a key that was deleted since": [
        (0, BEGIN, "ok", "begin 0", "ok"),
        (1, delete(1), "ok", "begin 1|delete 1 1|commit 1", "ok|ok|committed"),
        (0, insert(1), "ok", "insert 0 1 7 0 0 0 -", "error 4 AlreadyThere"),
        (0, read(1), "5 7", "get 0 1", "row 1 5 0 0 0 -"),
    ],
    "an insert of a key that was inserted since": [
        (0, BEGIN, "ok", "begin 0", "ok"),
        (1, insert(3), "ok", "begin 1|insert 1 3 7 0 0 0 -|commit 1", "ok|ok|committed"),
        (0, insert(3), "23505", "insert 0 3 7 0 0 0 -", "error 6 Conflict"),
    ],
    "an insert of a key that was inserted and deleted since": [
        (0, BEGIN, "ok", "begin 0", "ok"),
        (1, insert(3), "ok", "begin 1|insert 1 3 7 0 0 0 -|commit 1", "ok|ok|committed"),
        (1, delete(3), "ok", "begin 1|delete 1 3|commit 1", "ok|ok|committed"),
        (0, insert(3), "ok", "insert 0 3 7 0 0 0 -", "error 6 Conflict"),
    ],
    "an insert of a key that another is about to delete": [
        (0, BY_STATEMENT, "ok", "beginrc 0", "ok"),
        (1, BY_STATEMENT, "ok", "beginrc 1", "ok"),
        (1, delete(1), "ok", "delete 1 1", "ok"),
        (0, insert(1), "waits", "insert 0 1 7 0 0 0 -", "error 4 AlreadyThere"),
        (1, "COMMIT", "ok 0: ok", "commit 1", "committed"),
    ],
    "a ring of waits": [
        (0, BEGIN, "ok", "begin 0", "ok"),
        (1, BEGIN, "ok", "begin 1", "ok"),
        (1, "SET deadlock_timeout = '1h'", "ok", "get 1 1", "row 1 5 0 0 0 -"),
        (0, update(1), "ok", "update 0 1 7 0 0 0 -", "ok"),
        (1, update(2), "ok", "update 1 2 7 0 0 0 -", "ok"),
        (0, "SET deadlock_timeout = '2s'", "ok", "get 0 1", "row 1 7 0 0 0 -"),
        (0, update(2), "waits", "update 0 2 7 0 0 0 -", "error 7 Busy 1"),
        (1, update(1), "waits 0: 40P01", "update 1 1 7 0 0 0 -", "error 8 Deadlock"),
    ],
    "a snapshot is taken at the first statement": [
        (0, "BEGIN ISOLATION LEVEL REPEATABLE READ", "ok", "begin 0", "ok"),
        (1, update(1), "ok", "begin 1|update 1 1 7 0 0 0 -|commit 1", "ok|ok|committed"),
        (0, read(1), "7", "get 0 1", "row 1 5 0 0 0 -"),
    ],
    "a write beside an open cursor": [
        (0, BEGIN, "ok", "begin 0", "ok"),
        (0, "DECLARE x CURSOR FOR SELECT c FROM t ORDER BY k", "ok", "openheap 0", "ok"),
        (0, update(1), "ok", "update 0 1 7 0 0 0 -", "error 9 CursorOpen"),
        (0, "FETCH 1 FROM x", "5", "close 0", "ok"),
    ],
    "a write that waits, and a return to a savepoint": [
        (0, BY_STATEMENT, "ok", "beginrc 0", "ok"),
        (1, BY_STATEMENT, "ok", "beginrc 1", "ok"),
        (1, "SAVEPOINT a", "ok", "savepoint 1", "ok"),
        (1, update(1), "ok", "update 1 1 7 0 0 0 -", "ok"),
        (0, update(1, 8), "waits", "update 0 1 8 0 0 0 -", "error 7 Busy 1"),
        (1, "ROLLBACK TO a", "ok 0: ok", "rollbackto 1", "ok"),
    ],
    "what a failed session has written": [
        (0, BEGIN, "ok", "begin 0", "ok"),
        (1, update(1), "ok", "begin 1|update 1 1 7 0 0 0 -|commit 1", "ok|ok|committed"),
        (0, update(2), "ok", "update 0 2 7 0 0 0 -", "ok"),
        (0, update(1, 8), "40001", "update 0 1 8 0 0 0 -", "error 6 Conflict"),
        (1, update(2, 8), "ok", "begin 1|update 1 2 8 0 0 0 -", "ok|error 7 Busy 0"),
    ],
    "a write of a key that was updated since": [
        (0, BEGIN, "ok", "begin 0", "ok"),
        (1, update(1), "ok", "begin 1|update 1 1 7 0 0 0 -|commit 1", "ok|ok|committed"),
        (0, update(1, 8), "40001", "update 0 1 8 0 0 0 -", "error 6 Conflict"),
        (0, "COMMIT", "ok", "commit 0", "rolled back"),
    ],
}


def answer(client, seconds):
    """The SQLSTATE of an error, the rows, or ok; nothing where none has come in time."""
    said = client.lines_within(seconds)
    if said is None:
        return None
    fault = re.search(r"ERROR:  (\w{5})", " ".join(said))
    return fault[1] if fault else " ".join(it for it in said if it.isdigit()) or "ok"


def ask_server(command, steps):
    """What PostgreSQL answers to the steps of a case."""
    once = Client(command)
    once.tell("DROP TABLE IF EXISTS t; CREATE TABLE t (k bigint PRIMARY KEY, c bigint); INSERT INTO t VALUES (1, 5), (2, 6)")
    answer(once, 10)
    sessions, waiting, answers = {n: Client(command) for n in (0, 1)}, set(), []
    for session, sql, *_ in steps:
        sessions[session].tell(sql)
        here = answer(sessions[session], 0.5)
        waiting |= set() if here else {session}
        words = [here or "waits"]
        for other in sorted(waiting - {session}):
            came = answer(sessions[other], 2)
            words += [f"{other}: {came}"] if came else []
            waiting -= {other} if came else set()
        answers.append(" ".join(words))
    for session in [*sessions.values(), once]:
        session.end()
    return answers


def ask_program(heapsh, steps):
    """What the program answers to the lines of each step of a case."""
    lines = [step[3].split("|") for step in steps]
    script = "".join(f"{line}\n" for line in FIRST + [line for group in lines for line in group])
    said = subprocess.run([heapsh, "run"], input=script, capture_output=True, text=True, check=True).stdout.split("\n")[len(FIRST) - 1 :]
    answers = []
    for group in lines:
        answers.append("|".join(said[: len(group)]))
        said = said[len(group) :]
    return answers


def main(heapsh, programs=""):
    wrong = 0
    with server(programs, "-q") as psql:
        for name, steps in CASES.items():
            for n, (told, program, step) in enumerate(zip(ask_server(psql, steps), ask_program(heapsh, steps), steps), 1):
                for who, said, wanted in (("PostgreSQL", told, step[2]), ("the program", program, step[4])):
                    if said != wanted:
                        wrong += 1
                        print(f"{name}, step {n}: {who} answers {said!r}, not {wanted!r}")
    steps = sum(map(len, CASES.values()))
    print(f"{wrong} answers differ" if wrong else f"{len(CASES)} cases of {steps} steps are answered as they say")
    sys.exit(1 if wrong else 0)


if __name__ == "__main__":
    main(*sys.argv[1:])
