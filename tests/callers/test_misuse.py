"""What a Python program may get wrong, or have happen to it at any moment: nothing is lost without a word."""
import copy
import ctypes
import gc
import pickle
import signal
import sys
import unittest
from typing import Any, Callable, Iterator, List

import sandpipercot as sp
from sandpipercot import Row, Table, _c


def row(key: int, column: int = 0) -> Row:
    return Row(key, (column, 0, 0, 0), b"body of %d" % key)


class Interrupted(Exception):
    """What a signal handler raises, as Ctrl-C raises KeyboardInterrupt."""


class Signals:
    """A handler that is called again and again while a block runs, between whatever two steps of it: first after so many seconds."""

    def __init__(self, handler: Callable[[], object], seconds: float = 0.0002, again: float = 0.0002) -> None:
        self.handler, self.seconds, self.again, self.count, self.is_running = handler, seconds, again, 0, False

    def __enter__(self) -> "Signals":
        signal.signal(signal.SIGALRM, self._called)
        signal.setitimer(signal.ITIMER_REAL, self.seconds, self.again)
        return self

    def _called(self, *_: object) -> None:
        if self.is_running:
            return
        self.count, self.is_running = self.count + 1, True
        try:
            self.handler()
        finally:
            self.is_running = False

    def __exit__(self, *_: object) -> None:
        signal.setitimer(signal.ITIMER_REAL, 0)
        signal.signal(signal.SIGALRM, signal.SIG_DFL)


def interrupting(seconds: float) -> Signals:
    """A handler that raises. (What it raises may be swallowed, as in a `__del__`, so it comes again: long after, and not while the block
    is left.)"""

    def interrupt() -> None:
        raise Interrupted

    return Signals(interrupt, seconds, 1.0)


class TableTest(unittest.TestCase):
    """A table with the keys 0 to 999."""

    def setUp(self) -> None:
        self.table = Table(max_pages=64)
        self.addCleanup(self.table.close)
        with self.table.begin() as session:
            session.insert_many(row(key) for key in range(1000))


class SignalTest(TableTest):
    """Signal handlers that use the table which they interrupt."""

    def until(self, signals: Signals, work: Callable[[int], None], least: int = 200) -> None:
        """Works on until so many signals have come."""
        with signals:
            number = 0
            while signals.count < least:
                work(number)
                number += 1

    def test_a_get_answers_its_own_key(self) -> None:
        with self.table.begin() as session:

            def get_another() -> None:
                self.assertEqual(session.get(3), row(3))

            self.until(Signals(get_another), lambda _: self.assertEqual(session.get(1), row(1)))

    def test_a_write_writes_its_own_row(self) -> None:
        with self.table.begin() as session, self.table.begin() as other:
            keys = iter(range(2000, 100000))

            def write_another() -> None:
                other.insert(row(next(keys)))

            def write(number: int) -> None:
                session.update(row(1, number))
                self.assertEqual(session.get(1), row(1, number))

            self.until(Signals(write_another), write)

    def test_a_scan_hands_out_its_own_rows(self) -> None:
        with self.table.begin() as session, self.table.begin() as other:
            first, second = [row(key) for key in range(0, 64)], [row(key) for key in range(500, 564)]

            def scan_another() -> None:
                self.assertEqual(list(other.by_key(500, 563)), second)

            self.until(Signals(scan_another, 0.002), lambda _: self.assertEqual(list(session.by_key(0, 63)), first))

    def test_a_cursor_that_fetches_is_not_asked_for_more(self) -> None:
        told: List[BaseException] = []
        with self.table.begin() as session:
            for number in range(60):
                seen: List[int] = []
                cursor = session.keys(batch=1 + number % 3)

                def take_one() -> None:
                    try:
                        seen.append(next(cursor))
                    except (RuntimeError, StopIteration) as fault:
                        told.append(fault)

                with Signals(take_one):
                    while (key := next(cursor, None)) is not None:
                        seen.append(key)
                self.assertEqual(sorted(seen), list(range(1000)))

    def test_sessions_that_a_handler_begins_are_others(self) -> None:
        def begin_another() -> None:
            with self.table.begin() as inner:
                self.assertEqual(inner.get(3), row(3))

        def begin(_: int) -> None:
            with self.table.begin() as session:
                self.assertEqual(session.get(1), row(1))

        self.until(Signals(begin_another), begin)
        self.assertEqual(self.table.state().open_sessions, ())

    def test_an_interrupted_begin_leaves_no_session(self) -> None:
        for number in range(150):
            with self.assertRaises(Interrupted), interrupting(0.0001 + number * 1e-6):
                while True:
                    self.table.begin().abort()
            gc.collect()
        # (the next call aborts what was let go)
        with self.table.begin() as session:
            self.assertEqual((session.number, self.table.state().open_sessions), (0, (0,)))

    def test_a_number_may_use_the_table(self) -> None:
        with self.table.begin() as session:

            class Number:
                def __index__(self) -> int:
                    session.insert(row(2000))
                    return 5

            session.insert(Row(1500, (Number(), 0, 0, 0)))
            self.assertEqual((session.get(1500), session.get(2000)), (Row(1500, (5, 0, 0, 0)), row(2000)))

    def test_an_interrupted_vacuum_is_cancelled(self) -> None:
        with Table(dead_limit=1) as table:
            with table.begin() as session:
                session.insert_many(row(key) for key in range(2000))
            with table.begin() as session:
                for key in range(2000):
                    session.delete(key)

            for number in range(50):
                with self.assertRaises(Interrupted), interrupting(0.0005 + number * 1e-5):
                    while True:
                        table.vacuum()
                self.assertEqual(table.state().vacuum, sp.Vacuum.NONE)
            table.vacuum_begin()
            self.assertRaises(sp.VacuumRunning, table.vacuum, True)
            self.assertEqual(table.state().vacuum, sp.Vacuum.NORMAL)


class CopyTest(TableTest):
    def test_nothing_that_holds_something_is_copied(self) -> None:
        session = self.table.begin()
        session.insert(row(2000))
        ticket = session.take_page(0)
        rows, keys = session.rows(), self.table.begin().keys()
        for it in (self.table, session, ticket, rows, keys):
            for copies in (copy.copy, copy.deepcopy, pickle.dumps):
                with self.assertRaisesRegex(TypeError, f"cannot pickle 'sandpipercot.*{type(it).__name__}' object"):
                    copies(it)
        gc.collect()
        self.assertTrue(self.table.is_open and session.is_open and ticket.is_open)
        self.assertEqual(len(list(rows)), 1001)
        session.commit()

    def test_nothing_is_made_twice(self) -> None:
        session = self.table.begin()
        ticket, cursor = session.take_page(0), session.keys()
        self.assertRaises(RuntimeError, self.table.__init__)
        self.assertRaises(RuntimeError, self.table.__init__, max_pages=0)
        self.assertRaises(RuntimeError, session.__init__, self.table, 5)
        self.assertRaises(RuntimeError, ticket.__init__, _c.Ticket(), 0)
        self.assertRaises(RuntimeError, cursor.__init__, session, 1, "open_keys", 0, 1)
        self.assertEqual(self.table._address, ctypes.addressof(self.table._handle))
        self.assertEqual((session.number, len(list(cursor)), len(self.table.state().open_sessions)), (0, 1000, 1))
        session.commit()
        with self.table.begin() as session:
            self.assertEqual(session.get(3), row(3))
        self.table.close()
        self.assertRaises(RuntimeError, self.table.__init__)


class ClosedTest(TableTest):
    def looks(self) -> Iterator[Callable[[], Any]]:
        """Every call of a table."""
        table = self.table
        yield from (table.begin, lambda: table.begin(read_committed=True), lambda: table.keep_places(True), lambda: table.create_index(0))
        yield from (lambda: table.prune(0), lambda: table.apply_plan(0, 0), table.vacuum_begin, table.vacuum_step, table.vacuum_cancel)
        yield from (table.vacuum, table.state, lambda: table.page(0), lambda: table.slots(0), lambda: list(table.slots(0)))
        yield from (lambda: table.page_bytes(0), table.horizon, lambda: table.fate(0, 1), lambda: table.plan(0), lambda: table.status_of(3))
        yield table.vacuum_state

    def test_a_closed_table_says_so(self) -> None:
        session, slots = self.table.begin(), self.table.slots(0)
        self.assertEqual(next(slots).key, 0)
        calls: List[Callable[[], Any]] = [*self.looks(), lambda: next(slots)]
        self.table.close()
        calls += [
            lambda: session.get(1),
            lambda: session.insert(row(1)),
            lambda: session.update(row(1)),
            lambda: session.delete(1),
            lambda: session.insert_many([row(1)]),
            lambda: session.update_many([row(1)]),
            lambda: list(session.rows()),
            lambda: list(session.by_key()),
            lambda: list(session.by_column(0)),
            lambda: list(session.keys()),
            lambda: session.take_page(0),
            lambda: session.explain(1),
            session.state,
            session.savepoint,
            session.rollback_to,
            session.release,
            session.abort,
        ]
        for call in calls:
            self.assertRaises(sp.NoEngine, call)


class BytesTest(TableTest):
    def test_bytes_alone_are_a_page(self) -> None:
        page = self.table.page_bytes(0)
        for it in (page, bytearray(page), memoryview(page), memoryview(page).cast("I")):
            self.assertIsNone(sp.check_page(it))
        self.assertEqual(sp.check_page(memoryview(page)[::2]), sp.PageFault(sp.FaultKind.LENGTH, 0))
        for it in ("x" * sp.PAGE_BYTES, None, 8192, [0] * 8192):
            with self.assertRaises(TypeError) as raised:
                sp.check_page(it)
            self.assertLess(len(str(raised.exception)), 80)


if __name__ == "__main__":
    # (a handler that raises within a `__del__` is told there, and nowhere else)
    sys.unraisablehook = lambda _: None
    # (that a session is let go open is said, and several tests do it)
    unittest.main(warnings="ignore")
