"""Random calls on one session after another, beside a dictionary, and on several that go on together, beside the rules of who is first:
test_random.py [ROUNDS [SEED]]."""
from __future__ import annotations

import random
import sys
from collections import Counter
from typing import Any, Callable, Dict, List, Optional, Set

import sandpipercot as sp
from sandpipercot import Row, Session, Table

Rows = Dict[int, Row]
KEYS = 40


def any_row(draw: random.Random, key: int) -> Row:
    cols = tuple(draw.choice((-(2**63), -1, 0, 1, 2, 3, 2**63 - 1)) for _ in range(4))
    return Row(key, cols, draw.randbytes(draw.choice((0, 1, 7, 8, 100, 1024))))


def refusal(call: Callable[..., None], *arguments: Any) -> Optional[sp.Refused]:
    """How the call was refused, if it was."""
    try:
        call(*arguments)
    except sp.Refused as refused:
        return refused
    return None


def write(draw: random.Random, session: Session, rows: Rows) -> None:
    """One write, which has to be done just where the dictionary would take it."""
    key = draw.randrange(KEYS)
    kind = draw.choice(("insert", "update", "delete"))
    row = any_row(draw, key)
    refused = refusal(getattr(session, kind), key if kind == "delete" else row)
    assert type(refused) is (type(None) if (key in rows) == (kind != "insert") else sp.AlreadyThere if kind == "insert" else sp.NotThere)
    assert refused is None or refused.key == key
    if refused is None and kind == "delete":
        del rows[key]
    elif refused is None:
        rows[key] = row


def read(draw: random.Random, session: Session, rows: Rows) -> None:
    """One look at a key, at all rows, at a range of keys, with their rows or without, or at a range of column 1."""
    kind, batch = draw.randrange(8), draw.choice((1, 3, 64))
    low, high = sorted((draw.randrange(-4, 5), draw.randrange(-4, 5)))
    if kind < 3:
        key = draw.randrange(KEYS)
        assert session.get(key) == rows.get(key)
    elif kind == 3:
        assert sorted(session.rows(batch)) == sorted(rows.values())
    elif kind == 4:
        first, last = sorted((draw.randrange(KEYS), draw.randrange(KEYS)))
        assert list(session.by_key(first, last, batch)) == [rows[key] for key in sorted(rows) if first <= key <= last]
    elif kind < 7:
        first, last = sorted((draw.randrange(KEYS), draw.randrange(KEYS)))
        assert list(session.keys(first, last, batch)) == [key for key in sorted(rows) if first <= key <= last]
    else:
        found = [it for it in rows.values() if low <= it.cols[1] <= high]
        assert list(session.by_column(1, low, high, batch)) == sorted(found, key=lambda it: (it.cols[1], it.key))


def tickets_of(session: Session, pages: int) -> List[sp.Ticket]:
    """A ticket of each page."""
    return [session.take_page(page) for page in range(pages)]


def check_tickets(tickets: List[sp.Ticket], rows: Rows) -> None:
    """They hold these rows, each once."""
    assert sorted(row for ticket in tickets for row in ticket.rows()) == sorted(rows.values())


def go_back(draw: random.Random, session: Session, rows: Rows, saved: List[Rows]) -> Rows:
    """A savepoint, its release, or a return to it."""
    kind = draw.randrange(3)
    if kind == 0 and len(saved) < sp.SAVEPOINTS:
        session.savepoint()
        saved.append(dict(rows))
    elif kind == 1 and saved:
        session.release()
        saved.pop()
    elif kind == 2 and saved:
        session.rollback_to()
        return dict(saved[-1])
    return rows


def run_session(draw: random.Random, table: Table, committed: Rows) -> Rows:
    """One session of random calls; returns what is committed after it."""
    session = table.begin(draw.choice((None, draw.randrange(8, 64))))
    rows = dict(committed)
    saved: List[Rows] = []
    for _ in range(draw.randrange(1, 30)):
        kind = draw.randrange(8)
        if kind < 4:
            write(draw, session, rows)
        elif kind < 7:
            read(draw, session, rows)
        else:
            rows = go_back(draw, session, rows, saved)
    if draw.randrange(4) == 0:
        session.abort()
        return committed
    session.commit()
    return rows


class Together:
    """Sessions by snapshot that go on at once, and what each has to be answered."""

    def __init__(self, draw: random.Random, table: Table, committed: Rows) -> None:
        self.draw, self.table, self.committed = draw, table, committed
        self.sessions: Dict[int, Session] = {}
        self.rows: Dict[int, Rows] = {}  # what each session reads
        self.written: Dict[int, Set[int]] = {}  # the keys that it wrote
        self.late: Dict[int, Set[int]] = {}  # the keys that others have committed since it began
        self.waits: Dict[int, int] = {}  # for whom it waits
        self.failed: Set[int] = set()
        self.counts: Counter[str] = Counter()

    def begin(self, number: int) -> None:
        self.sessions[number] = self.table.begin(number)
        self.rows[number], self.written[number], self.late[number] = dict(self.committed), set(), set()

    def end(self, number: int) -> None:
        session, has_failed = self.sessions.pop(number), number in self.failed
        self.failed.discard(number)
        keys, rows = self.written.pop(number), self.rows.pop(number)
        self.late.pop(number)
        self.waits = {it: holder for it, holder in self.waits.items() if number not in (it, holder)}
        if self.draw.randrange(4) == 0:
            session.abort()
            return
        try:
            session.commit()
            assert not has_failed
        except sp.RolledBack:
            assert has_failed
            return
        for key in keys:
            self.committed.pop(key, None)
            if key in rows:
                self.committed[key] = rows[key]
        for late in self.late.values():
            late |= keys

    def expected(self, number: int, kind: str, key: int) -> str:
        """How a write is to be refused, by the order of the rules; for a Busy its session stands behind."""
        if number in self.failed:
            return "Failed"
        if (key in self.rows[number]) != (kind != "insert"):
            return "AlreadyThere" if kind == "insert" else "NotThere"
        if key in self.late[number]:
            return "Conflict"
        holder = next((it for it, keys in self.written.items() if it != number and key in keys), None)
        if holder is None:
            return ""
        at: Optional[int] = holder
        while at is not None and at != number:
            at = self.waits.get(at)
        return "Deadlock" if at == number else f"Busy {holder}"

    def write(self, number: int) -> None:
        key, kind = self.draw.randrange(6), self.draw.choice(("insert", "update", "delete"))
        self.waits.pop(number, None)
        expected, row = self.expected(number, kind, key), any_row(self.draw, key)
        refused = refusal(getattr(self.sessions[number], kind), key if kind == "delete" else row)
        told = "" if refused is None else f"Busy {refused.session}" if isinstance(refused, sp.Busy) else type(refused).__name__
        assert told == expected, (number, kind, key, told, expected)
        self.counts[told.split()[0] if told else "done"] += 1
        if told in ("Conflict", "Deadlock"):
            self.failed.add(number)
        elif told.startswith("Busy"):
            self.waits[number] = int(told.split()[1])
        elif not told:
            self.written[number].add(key)
            self.rows[number].pop(key, None)
            if kind != "delete":
                self.rows[number][key] = row

    def read(self, number: int) -> None:
        key = self.draw.randrange(6)
        self.waits.pop(number, None)
        if number in self.failed:
            assert type(refusal(self.sessions[number].get, key)) is sp.Failed
        else:
            assert self.sessions[number].get(key) == self.rows[number].get(key)

    def step(self) -> None:
        number, kind = self.draw.randrange(5), self.draw.randrange(10)
        if number not in self.sessions:
            self.begin(number)
        elif kind < 6:
            self.write(number)
        elif kind < 8:
            self.read(number)
        else:
            self.end(number)


def run_together(draw: random.Random, table: Table, committed: Rows, steps: int) -> None:
    together = Together(draw, table, {key: row for key, row in committed.items() if key < 6})
    for _ in range(steps):
        together.step()
    for number in list(together.sessions):
        together.end(number)
    counts = together.counts
    assert all(counts[it] > steps // 20000 for it in ("done", "Busy", "Conflict", "Deadlock", "Failed", "AlreadyThere", "NotThere")), counts
    print(f"{sum(counts.values())} writes of sessions that go on together: {dict(counts)}")


def main(rounds: int = 2000, seed: Optional[int] = None) -> None:
    seed = random.randrange(1 << 32) if seed is None else seed
    print(f"seed {seed}")
    draw = random.Random(seed)
    committed: Rows = {}
    with Table(indexed=(False, True, False, False)) as table:
        # a session that began at some time, and what it is to read all along
        reader, view = table.begin(1), dict(committed)
        tickets: List[sp.Ticket] = []
        seen: Rows = {}
        for number in range(rounds):
            committed = run_session(draw, table, committed)
            read(draw, reader, view)
            if draw.randrange(20) == 0:
                check_tickets(tickets, seen)
                tickets, seen = tickets_of(reader, table.state().pages), dict(view)
                check_tickets(tickets, seen)
            if draw.randrange(20) == 0:
                reader.commit()
                reader, view = table.begin(1), dict(committed)
            if draw.randrange(10) == 0 and table.state().pages:
                table.prune(0)
            if draw.randrange(20) == 0:
                table.vacuum(draw.randrange(2) == 0)
        reader.commit()
        run_together(draw, table, committed, 10 * rounds)
    print(f"{rounds} sessions, all as the dictionary")


if __name__ == "__main__":
    main(*map(int, sys.argv[1:]))
