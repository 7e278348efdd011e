#!/usr/bin/env python3
"""Every order in which a vacuum's steps can stand between those of two short sessions: test_orders.py HEAPSH [--all]

Of three pairs of sessions, each beside a vacuum of either mode. What the sessions are answered has to be what a history that is never
cleaned allows, which is reckoned here, by dictionaries. So is what the vacuum is answered, by the ids that are open. When all have ended, a
vacuum more has to leave one version of each row, and no dead slot. Without --all one order in 97 is tried.
"""
import itertools
import os
import subprocess
import sys
import time
from multiprocessing import Pool
from typing import Dict, Iterator, List, NamedTuple, Optional, Tuple

EVERY = 97
KEYS = range(1, 5)
# Keys 1, 2 and 4 were there; key 2 is deleted, and nobody sees it any more.
BEFORE = ["begin 0", "insert 0 1 5", "insert 0 2 5", "insert 0 4 5", "commit 0", "begin 0", "delete 0 2", "commit 0"]
# The page, its entry and its slot take a step each; by the last the vacuum has ended.
VACUUM = ["heap 0", "index 0", "free 0", "ended"]
FIRST_ID = 3
PAIRS = [
    # one deletes a row that the other reads, and inserts another
    (["begin 0", "delete 0 1", "insert 0 3 6", "commit 0"], ["begin 1", "get 1 1", "get 1 3", "commit 1"]),
    # both write one row
    (["begin 0", "update 0 1 6", "commit 0"], ["begin 1", "update 1 1 7", "get 1 1", "commit 1"]),
    # one writes a row, and fails where the other has committed a row that it then writes: its first row stays its own
    (["begin 0", "update 0 1 6", "update 0 4 6"], ["begin 1", "update 1 4 7", "commit 1", "begin 1", "update 1 1 9"]),
]


class Session:
    """What a session reads and writes, and whether it has failed; the first id that its snapshot doesn't see, and its own."""

    def __init__(self, view: Dict[int, int], low: int) -> None:
        self.view, self.written, self.late, self.failed = dict(view), set(), set(), False
        self.low = low
        self.id: Optional[int] = None


class History:
    """A history of snapshots in which the first committer wins."""

    def __init__(self) -> None:
        self.rows: Dict[int, int] = {}
        self.open: Dict[int, Session] = {}
        self.next_id = FIRST_ID
        # frozen below, and what it is to be when the vacuum has ended; what its steps are still to be answered
        self.below = self.cutoff = FIRST_ID
        self.vacuum: List[str] = []

    def open_ids(self) -> List[int]:
        return [session.id for session in self.open.values() if session.id is not None]

    def horizon(self) -> int:
        """The earliest of the next id, of all open ids, and of what each snapshot doesn't see first."""
        return min([self.next_id, *self.open_ids(), *(session.low for session in self.open.values())])

    def clean(self, words: List[str]) -> str:
        """What a line of the vacuum is answered: it has one page to visit, whose dead slot has one entry."""
        if words[0] == "begin":
            self.cutoff = self.horizon() if words[1] == "aggressive" else self.below
            self.vacuum = list(VACUUM)
            return "ok"
        answer = self.vacuum.pop(0)
        if answer != "ended":
            return answer
        self.below = self.cutoff
        return f"ended {self.below}"

    def refusal(self, s: int, key: int, is_there: bool) -> Optional[str]:
        """Why the session may not write the key, which it has to read, or not to."""
        session = self.open[s]
        if session.failed:
            return "error 3 Failed"
        if (key in session.view) != is_there:
            return "error 5 NotThere" if is_there else "error 4 AlreadyThere"
        if key in session.late:
            session.failed = True
            return "error 6 Conflict"
        holders = [o for o, other in self.open.items() if o != s and key in other.written]
        return f"error 7 Busy {holders[0]}" if holders else None

    def write(self, s: int, key: int, value: Optional[int], is_there: bool) -> str:
        refused = self.refusal(s, key, is_there)
        if refused is None:
            session = self.open[s]
            session.written.add(key)
            if session.id is None:
                session.id, self.next_id = self.next_id, self.next_id + 1
            if value is None:
                del session.view[key]
            else:
                session.view[key] = value
        return refused or "ok"

    def commit(self, s: int) -> str:
        session = self.open.pop(s)
        if session.failed:
            return "rolled back"
        for key in session.written:
            self.rows.pop(key, None)
            if key in session.view:
                self.rows[key] = session.view[key]
        for other in self.open.values():
            other.late |= session.written
        return "committed"

    def answer(self, line: str) -> str:
        verb, *words = line.split()
        if verb == "vacuum":
            return self.clean(words)
        s, *numbers = map(int, words)
        if verb == "begin":
            self.open[s] = Session(self.rows, min([self.next_id, *self.open_ids()]))
            return "ok"
        if verb == "commit":
            return self.commit(s)
        if verb == "get":
            return "error 3 Failed" if self.open[s].failed else shown(numbers[0], self.open[s].view)
        value = numbers[1] if len(numbers) > 1 else None
        return self.write(s, numbers[0], value, verb != "insert")


def shown(key: int, rows: Dict[int, int]) -> str:
    return f"row {key} {rows[key]} 0 0 0 -" if key in rows else "none"


class Order(NamedTuple):
    pair: int
    mode: str
    turns: Tuple[int, ...]


def turns_of(counts: List[int]) -> Iterator[Tuple[int, ...]]:
    """All orders of so many steps of each."""
    if not any(counts):
        yield ()
    for who in range(len(counts)):
        if counts[who]:
            rest = [count - (other == who) for other, count in enumerate(counts)]
            yield from ((who, *turns) for turns in turns_of(rest))


def all_orders() -> Iterator[Order]:
    for pair, mode in itertools.product(range(len(PAIRS)), ["normal", "aggressive"]):
        first, second = PAIRS[pair]
        for turns in turns_of([len(first), len(second), 1 + len(VACUUM)]):
            yield Order(pair, mode, turns)


def lines_of(order: Order) -> Iterator[str]:
    vacuum = [f"vacuum begin {order.mode}", *["vacuum step"] * len(VACUUM)]
    steps = [iter(PAIRS[order.pair][0]), iter(PAIRS[order.pair][1]), iter(vacuum)]
    return (next(steps[who]) for who in order.turns)


def written_out(line: str) -> str:
    """The line as a script has it, where a row has three columns more, and no body."""
    return f"{line} 0 0 0 -" if line.split()[0] in ("insert", "update") else line


def try_order(heapsh: str, order: Order) -> Optional[str]:
    """What is answered otherwise, if anything is."""
    history, lines = History(), [*BEFORE, *lines_of(order)]
    wanted = [history.answer(line) for line in lines]
    for session in sorted(history.open):
        lines.append(f"commit {session}")
        wanted.append(history.answer(lines[-1]))
    after = ["vacuum cancel", "vacuum begin normal", "vacuum finish", "begin 2", *(f"get 2 {key}" for key in KEYS), "page 0"]
    wanted += ["error 18 NoVacuum", "ok", f"ended {history.below}", "ok", *(shown(key, history.rows) for key in KEYS)]
    text = "".join(f"{written_out(line)}\n" for line in ["heap 4 1000 0 3 64 0000", *lines, *after])
    ran = subprocess.run([heapsh, "run"], input=text, capture_output=True, text=True, check=True, timeout=60)
    answers = ran.stdout.splitlines()
    for line, answer, want in zip([*lines, *after], answers, wanted):
        if answer != want:
            return f"{order}: {line} is answered {answer}, and not {want}"
    slots = [line.split()[1] for line in answers[len(wanted) + 1 :]]
    if slots.count("normal") != len(history.rows) or "dead" in slots:
        return f"{order}: {slots} for {len(history.rows)} rows"
    return None


def try_numbered(job: Tuple[str, Order]) -> Optional[str]:
    return try_order(*job)


def main() -> None:
    heapsh, began = os.path.abspath(sys.argv[1]), time.monotonic()
    every = 1 if "--all" in sys.argv[2:] else EVERY
    tried = 0
    with Pool() as pool:
        jobs = ((heapsh, order) for order in itertools.islice(all_orders(), 0, None, every))
        for wrong in pool.imap_unordered(try_numbered, jobs, chunksize=64):
            assert wrong is None, wrong
            tried += 1
    print(f"test_orders.py: {tried} orders, each as it has to be, in {time.monotonic() - began:.0f} seconds")


if __name__ == "__main__":
    main()
