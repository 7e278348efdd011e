"""Two sessions on one page, one by snapshot and one by statement, that write, return to savepoints and commit while the page is pruned and
vacuumed: test_one_page.py [STEPS [SEED]].

Each answer has to be that of the rules, which are followed here by dictionaries. After each step the page is checked, by the library and by
the text of its format (tests/pages/page_format.py). The page is often full: so versions are moved, and slots are used again."""
from __future__ import annotations

import os
import random
import sys
from collections import Counter
from typing import Dict, List, Optional, Set

import sandpipercot as sp
from sandpipercot import Row, Session, Table

sys.path.append(os.path.join(os.path.dirname(os.path.dirname(os.path.abspath(__file__))), "pages"))

import page_format as text  # noqa: E402

Rows = Dict[int, Row]
KEYS = 8
SNAPSHOT, STATEMENT = 0, 1
LEAST = ("done", "NoRoom", "Busy", "Conflict", "Deadlock", "Failed", "AlreadyThere", "NotThere", "rolled back", "redirects", "dead", "moved", "used again")


class Followed:
    """An open session, and what it is to read and to hold."""

    def __init__(self, session: Session, committed: Rows) -> None:
        self.session = session
        self.start: Rows = dict(committed)  # what a session by snapshot reads of others
        self.late: Set[int] = set()  # the keys that were committed since it began
        self.levels: List[Dict[int, Optional[Row]]] = [{}]  # what it wrote, by savepoint
        self.failed = False

    def written(self) -> Dict[int, Optional[Row]]:
        """What it wrote last of each key."""
        return {key: row for level in self.levels for key, row in level.items()}


class OnePage:
    """The table, and what each call is to be answered."""

    def __init__(self, draw: random.Random, table: Table) -> None:
        self.draw, self.table = draw, table
        self.committed: Rows = {}
        self.open: Dict[int, Followed] = {}
        self.waits: Set[int] = set()  # who waits for the other
        self.counts: Counter[str] = Counter()
        self.before = text.Page(0, 0, ())
        self.places: List[tuple[int, int, int]] = []

    def view(self, number: int) -> Rows:
        """What the session reads now."""
        it = self.open[number]
        rows = {**(self.committed if number == STATEMENT else it.start), **it.written()}
        return {key: row for key, row in rows.items() if row is not None}

    def any_row(self, key: int) -> Row:
        """Column 1, which has an index, seldom changes; bodies are of all lengths."""
        length = self.draw.choice((0, 1, 8, 100, 300, 1024))
        return Row(key, (self.draw.randrange(9), self.draw.choice((0, 0, 0, 0, 0, 1)), 0, 0), self.draw.randbytes(length))

    def begin(self, number: int) -> None:
        session = self.table.begin(number, read_committed=number == STATEMENT)
        self.open[number] = Followed(session, self.committed)

    def end(self, number: int) -> None:
        it = self.open.pop(number)
        self.waits.clear()
        if self.draw.randrange(4) == 0:
            it.session.abort()
            return
        try:
            it.session.commit()
            assert not it.failed
        except sp.RolledBack:
            assert it.failed
            self.counts["rolled back"] += 1
            return
        for key, row in it.written().items():
            self.committed.pop(key, None)
            if row is not None:
                self.committed[key] = row
        for other in self.open.values():
            other.late |= set(it.written())

    def expected(self, number: int, kind: str, key: int) -> str:
        """How the write is to be refused, but for want of room."""
        it, other = self.open[number], self.open.get(1 - number)
        if it.failed:
            return "Failed"
        if (key in self.view(number)) != (kind != "insert"):
            return "AlreadyThere" if kind == "insert" else "NotThere"
        if number == SNAPSHOT and key in it.late:
            return "Conflict"
        if other is None or key not in other.written():
            return ""
        return "Deadlock" if 1 - number in self.waits else "Busy"

    def write(self, number: int) -> None:
        """A write of a key, which mostly suits what the session reads."""
        it, key = self.open[number], self.draw.randrange(KEYS)
        suits = (key in self.view(number)) != (self.draw.randrange(8) == 0)
        kind = self.draw.choice(("update", "update", "update", "update", "delete")) if suits else "insert"
        self.waits.discard(number)
        expected, row, told = self.expected(number, kind, key), self.any_row(key), ""
        try:
            it.session.delete(key) if kind == "delete" else getattr(it.session, kind)(row)
        except sp.Refused as refused:
            told = type(refused).__name__
        if told == "NoRoom":
            assert not expected and kind != "delete" and text.rounded(66 + len(row.body)) > self.room(), (kind, row)
            # (an update has pruned the page before: nothing is left that could go)
            assert kind == "insert" or not self.table.plan(0).actions, self.table.plan(0)
        else:
            assert told == expected, (number, kind, key, told, expected)
        self.counts[told or "done"] += 1
        if told in ("Conflict", "Deadlock"):
            it.failed = True
        elif told == "Busy":
            self.waits.add(number)
        elif not told:
            it.levels[-1][key] = None if kind == "delete" else row

    def go_back(self, number: int) -> None:
        """A savepoint, its release, or a return to it."""
        it, kind = self.open[number], self.draw.randrange(4)
        if kind > 1 and len(it.levels) > 1:
            it.session.rollback_to()
            it.levels[-1], it.failed = {}, False
            self.waits.clear()
        elif it.failed or len(it.levels) > 4:
            return
        elif kind == 1 and len(it.levels) > 1:
            it.session.release()
            released = it.levels.pop()
            it.levels[-1].update(released)
        else:
            it.session.savepoint()
            it.levels.append({})
        self.waits.discard(number)

    def read(self, number: int) -> None:
        """All that it reads, by the heap, by key, by the index, and by the page."""
        it, rows = self.open[number], self.view(number)
        if it.failed:
            return
        kind, wanted = self.draw.randrange(4), sorted(rows.values())
        if kind < 3:
            # (a page is taken by no step)
            self.waits.discard(number)
        if kind == 0:
            assert sorted(it.session.rows()) == wanted
        elif kind == 1:
            assert list(it.session.by_key()) == wanted and list(it.session.keys()) == sorted(rows)
        elif kind == 2:
            assert list(it.session.by_column(1)) == sorted(wanted, key=lambda row: (row.cols[1], row.key))
        elif self.table.state().pages:
            assert sorted(it.session.take_page(0).rows()) == wanted

    def clean(self) -> None:
        """A pruning, or some steps of a vacuum, of which the sessions know nothing."""
        if self.draw.randrange(3):
            self.table.prune(0)
            return
        if self.table.state().vacuum == sp.Vacuum.NONE:
            self.table.vacuum_begin(self.draw.randrange(2) == 0)
        if self.table.vacuum_step().kind == sp.PieceKind.NO_PIECE:
            self.counts["vacuums"] += 1

    def room(self) -> int:
        """The size of the largest version that the page has room for, rounded up to a multiple of 8."""
        page = self.table.page_bytes(0)
        if page is None:
            return 1090
        places = text.pointers(page, len(text.shown_by(page).slots))
        taken = sum(text.rounded(length) for _, kind, length in places if kind == text.NORMAL)
        is_new = all(kind != text.UNUSED for _, kind, _ in places)
        return text.SIZE - 24 - 4 * (len(places) + is_new) - taken

    def check_page(self) -> None:
        """The page has no fault by either reading, and shows each row that somebody reads."""
        page = self.table.page_bytes(0)
        if page is None:
            return
        assert sp.check_page(page) is None and text.fault_of(page) is None, (sp.check_page(page), text.fault_of(page), page.hex())
        shown = text.shown_by(page)
        places = text.pointers(page, len(shown.slots))
        versions = {(it.version.key, it.version.columns, it.version.body) for it in shown.slots if it.version}
        for rows in (self.committed, *(self.view(number) for number in self.open)):
            assert {(row.key, row.cols, row.body) for row in rows.values()} <= versions
        both = list(zip(self.before.slots, shown.slots, self.places, places))
        self.counts["moved"] += any(old == new and old.version and was != place for old, new, was, place in both)
        self.counts["used again"] += any(old.kind == text.UNUSED and new.kind == text.NORMAL for old, new, _, _ in both)
        self.counts["redirects"] += any(it.kind == text.REDIRECT for it in shown.slots)
        self.counts["dead"] += any(it.kind == text.DEAD for it in shown.slots)
        self.before, self.places = shown, places

    def step(self) -> None:
        number, kind = self.draw.randrange(2), self.draw.randrange(16)
        if kind == 0 and self.table.state().pages:
            self.clean()
        elif number not in self.open:
            self.begin(number)
        elif kind < 10:
            self.write(number)
        elif kind < 13:
            self.go_back(number)
        elif kind < 15:
            self.read(number)
        else:
            self.end(number)
        self.check_page()


def main(steps: int = 10000, seed: Optional[int] = None) -> None:
    seed = random.randrange(1 << 32) if seed is None else seed
    print(f"seed {seed}")
    with Table(max_pages=1, indexed=(False, True, False, False)) as table:
        page = OnePage(random.Random(seed), table)
        for _ in range(steps):
            page.step()
    counts = page.counts
    assert all(counts[it] >= steps // 1000 for it in LEAST), counts
    print(f"{steps} steps on one page, each as the rules have it, and the page without a fault after each: {dict(counts)}")


if __name__ == "__main__":
    main(*map(int, sys.argv[1:]))
