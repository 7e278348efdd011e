#!/usr/bin/env python3
"""Has PostgreSQL answer a schedule, and writes the transcript for heapjudge: recorder.py FOLDER_OF_POSTGRESQL'S_PROGRAMS SCRIPT [--statement]

The schedule is a script of heapsh (docs/script.md) of begin, beginrc, get, insert, update, delete, savepoint, rollbackto, release, commit, abort,
openheap, openindex by key, openkeys, next and close. A session is a psql: begin is REPEATABLE READ, beginrc READ COMMITTED, and with
--statement each is READ COMMITTED. One statement is asked at a time, in the order of the script. What PostgreSQL does is told in our words:

- Each statement stands in a savepoint of its own, so that an error other than 40001 leaves the session usable. After 40001 it stays failed.
- A wait is cut off (lock_timeout), and told as Busy, by whom is not said. The session then gets the same key: whoever asks again waits no more.
- The view decides of an insert: where the session reads a row of the key, it is AlreadyThere, and nothing is asked. An insert that finds
  another's row all the same (23505) is a Conflict, and the session has failed.
- A snapshot is taken as the session begins, by a SELECT.

That a key was inserted and deleted since, PostgreSQL doesn't see at an insert: such a schedule is judged wrong there (docs/postgresql.md).
"""
import re
import sys
from typing import Dict, Iterator, List

from server import Client, server

TABLE = "CREATE TABLE t (k numeric PRIMARY KEY, a bigint, b bigint, c bigint, d bigint, body text)"
FAILED, ALREADY_THERE, NOT_THERE = "error 3 Failed", "error 4 AlreadyThere", "error 5 NotThere"
CONFLICT, BUSY = "error 6 Conflict", "error 7 Busy"
CODES = {"40001": CONFLICT, "55P03": BUSY, "23505": CONFLICT, "25P02": FAILED, "3B001": "error 12 NoSavepoint"}


def errors(said: List[str]) -> List[str]:
    """The SQLSTATE of each error among the lines of an answer."""
    return [found[1] for found in (re.search(r"ERROR:  (\w{5})", line) for line in said) if found]


class Session:
    """A session of the schedule: its psql, and how many savepoints it has."""

    def __init__(self, command: List[str]) -> None:
        self.client = Client(command)
        self.savepoints = 0
        self.ask("SET lock_timeout = '150ms'")

    def ask(self, sql: str) -> List[str]:
        self.client.tell(sql)
        said = self.client.lines_within(20)
        if said is None:
            raise TimeoutError(sql)
        return [line for line in said if line]

    def tried(self, sql: str) -> List[str]:
        """The lines of a statement, or the SQLSTATE of its error alone; it stands in a savepoint of its own."""
        said = self.ask(f"SAVEPOINT statement; {sql}")
        codes = errors(said)
        if not codes:
            self.ask("RELEASE statement")
            return said[1:]
        if CODES.get(codes[0]) != CONFLICT and codes[0] != "25P02":
            self.ask("ROLLBACK TO statement; RELEASE statement")
        return codes[:1]


def row_line(fields: str) -> str:
    *numbers, body = fields.split("|")
    return " ".join(["row", *numbers, body or "-"])


class Recorder:
    """A schedule that is asked."""

    def __init__(self, command: List[str], by_statement: bool) -> None:
        self.command = command
        self.by_statement = by_statement
        self.sessions: Dict[str, Session] = {}
        once = Client(command)
        once.tell(f"DROP TABLE IF EXISTS t; {TABLE}")
        once.lines_within(20)
        once.end()

    def begin(self, s: str, is_by_statement: bool) -> str:
        session = self.sessions[s] = self.sessions.get(s) or Session(self.command)
        session.savepoints = 0
        level = "READ COMMITTED" if is_by_statement or self.by_statement else "REPEATABLE READ"
        session.ask(f"BEGIN ISOLATION LEVEL {level}; SELECT")
        return "ok"

    def read(self, s: str, key: str) -> str:
        said = self.sessions[s].tried(f"SELECT * FROM t WHERE k = {key}")
        return CODES.get(said[0]) or row_line(said[0]) if said else "none"

    def written(self, s: str, sql: str) -> str:
        said = self.sessions[s].tried(sql)
        if said[0] in CODES:
            return CODES[said[0]]
        return NOT_THERE if said[-1].endswith(" 0") else "ok"

    def insert(self, s: str, key: str, numbers: List[str], body: str) -> str:
        seen = self.read(s, key)
        if seen != "none":
            return ALREADY_THERE if seen.startswith("row") else seen
        return self.written(s, f"INSERT INTO t VALUES ({key}, {', '.join(numbers)}, '{body}')")

    def update(self, s: str, key: str, numbers: List[str], body: str) -> str:
        sets = ", ".join(f"{name} = {number}" for name, number in zip("abcd", numbers))
        return self.written(s, f"UPDATE t SET {sets}, body = '{body}' WHERE k = {key}")

    def savepoint(self, s: str, how: str) -> str:
        session = self.sessions[s]
        newest = session.savepoints + (how == "savepoint")
        words = {"savepoint": "SAVEPOINT", "rollbackto": "ROLLBACK TO", "release": "RELEASE"}
        codes = errors(session.ask(f"{words[how]} sp{newest}"))
        if codes:
            return CODES[codes[0]]
        session.savepoints = newest - (how == "release")
        return "ok"

    def end(self, s: str, how: str) -> str:
        said = self.sessions[s].ask(how.upper() if how == "commit" else "ROLLBACK")
        return "committed" if said[-1] == "COMMIT" else "rolled back"

    def opened(self, s: str, columns: str, low: str, high: str) -> str:
        said = self.sessions[s].tried(f"DECLARE rows CURSOR FOR SELECT {columns} FROM t WHERE k BETWEEN {low} AND {high} ORDER BY k")
        return CODES.get(said[-1], "ok")

    def next_of(self, s: str, count: str) -> List[str]:
        rows = self.sessions[s].ask(f"FETCH {max(int(count), 1)} FROM rows")
        if errors(rows):
            return [FAILED]
        if not rows:
            return ["end"]
        if "|" in rows[0]:
            return [f"rows {len(rows)}", *map(row_line, rows)]
        return [f"keys {len(rows)}", *(f"key {key}" for key in rows)]

    def answer(self, line: str) -> List[str]:
        """What PostgreSQL answers to a line of the schedule."""
        word, s, *rest = line.split()
        if word in ("begin", "beginrc"):
            return [self.begin(s, word == "beginrc")]
        if word == "get":
            return [self.read(s, rest[0])]
        if word in ("insert", "update"):
            how = self.insert if word == "insert" else self.update
            return [how(s, rest[0], rest[1:5], rest[5].replace("-", ""))]
        if word == "delete":
            return [self.written(s, f"DELETE FROM t WHERE k = {rest[0]}")]
        if word in ("savepoint", "rollbackto", "release"):
            return [self.savepoint(s, word)]
        if word in ("commit", "abort"):
            return [self.end(s, word)]
        if word == "openheap":
            return [self.opened(s, "*", "0", "1e20")]
        if word == "openindex" and rest[0] == "0":
            return [self.opened(s, "*", *rest[1:])]
        if word == "openkeys":
            return [self.opened(s, "k", *rest)]
        if word == "next":
            return self.next_of(s, rest[0])
        if word == "close":
            return [FAILED if errors(self.sessions[s].ask("CLOSE rows")) else "ok"]
        raise ValueError(f"the recorder has no {line!r}")

    def lines(self, script: List[str]) -> Iterator[str]:
        """The transcript of a script."""
        yield script[0]
        for line in script[1:]:
            said = self.answer(line)
            yield from (f"> {line}", *said)
            if said == [BUSY]:
                again = f"get {' '.join(line.split()[1:3])}"
                yield from (f"> {again}", *self.answer(again))
        for session in self.sessions.values():
            session.client.end()


def recorded(command: List[str], script: List[str], by_statement: bool = False) -> str:
    return "".join(f"{line}\n" for line in Recorder(command, by_statement).lines(script))


def main(programs: str, path: str, *words: str) -> None:
    with open(path, encoding="utf-8") as file:
        script = file.read().splitlines()
    with server(programs) as command:
        sys.stdout.write(recorded(command, script, "--statement" in words))


if __name__ == "__main__":
    main(*sys.argv[1:])
