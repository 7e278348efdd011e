"""What the Python module does, by worked cases."""
import gc
import threading
import unittest
import warnings
from typing import List

import sandpipercot as sp
from sandpipercot import Row, Table


def row(key: int, column: int = 0, body: bytes = b"") -> Row:
    return Row(key, (column, 0, 0, 0), body)


class TableTest(unittest.TestCase):
    """On a table with an index by column 0, in which the keys 1 to 10 have ten times the key in column 0."""

    def setUp(self) -> None:
        self.table = Table(max_pages=64, indexed=(True, False, False, False))
        self.addCleanup(self.table.close)
        with self.table.begin() as session:
            for key in range(1, 11):
                session.insert(row(key, key * 10, b"first"))

    def test_rows_come_back(self) -> None:
        widest = Row(2**64 - 1, (2**63 - 1, -(2**63), 0, -1), bytes(range(256)) * 4)
        with self.table.begin() as session:
            session.insert(widest)
            self.assertEqual(session.get(2**64 - 1), widest)
            self.assertEqual(session.get(3), row(3, 30, b"first"))
            self.assertIsNone(session.get(11))
            session.delete(3)
            self.assertIsNone(session.get(3))

    def test_a_with_block_commits_at_its_end(self) -> None:
        with self.table.begin() as session:
            session.update(row(3, 333))
        self.assertFalse(session.is_open)
        with self.table.begin() as session:
            self.assertEqual(session.get(3), row(3, 333))

    def test_a_with_block_aborts_on_an_exception(self) -> None:
        with self.assertRaises(KeyError), self.table.begin() as session:
            session.update(row(3, 333))
            raise KeyError
        self.assertFalse(session.is_open)
        with self.table.begin() as session:
            self.assertEqual(session.get(3), row(3, 30, b"first"))

    def test_a_with_block_may_end_its_session_itself(self) -> None:
        with self.table.begin() as session:
            session.delete(3)
            session.abort()
        with self.table.begin() as session:
            session.delete(4)
            session.commit()
        with self.table.begin() as session:
            self.assertEqual((session.get(3), session.get(4)), (row(3, 30, b"first"), None))

    def test_a_session_keeps_its_view(self) -> None:
        old = self.table.begin()
        with self.table.begin() as new:
            new.update(row(3, 333))
            with self.assertRaises(sp.Busy) as busy:
                old.update(row(3))
            self.assertEqual(busy.exception.session, new.number)
        self.assertEqual(old.get(3), row(3, 30, b"first"))

    def test_the_first_committer_wins(self) -> None:
        old = self.table.begin()
        with self.table.begin() as new:
            new.update(row(3, 333))
        with self.assertRaises(sp.Conflict):
            old.update(row(3))
        with self.assertRaises(sp.Failed):
            old.get(3)
        with self.assertRaises(sp.RolledBack):
            old.commit()
        self.assertFalse(old.is_open)
        with self.assertRaises(sp.RolledBack), self.table.begin() as old:
            with self.table.begin() as new:
                new.update(row(3, 444))
            with self.assertRaises(sp.Conflict):
                old.update(row(3))

    def test_a_ring_of_two_waits_is_a_deadlock(self) -> None:
        with self.table.begin() as one, self.table.begin() as two:
            one.savepoint()
            one.update(row(3, 333))
            two.update(row(4, 444))
            self.assertRaises(sp.Busy, two.update, row(3))
            with self.assertRaises(sp.Deadlock) as refused:
                one.update(row(4))
            self.assertEqual((refused.exception.key, refused.exception.status), (4, sp.Status.DEADLOCK))
            self.assertRaises(sp.Failed, one.get, 3)
            # the other waits on, until the failed session gives the key back
            self.assertRaises(sp.Busy, two.update, row(3))
            one.rollback_to()
            two.update(row(3, 444))
            self.assertEqual(one.get(3), row(3, 30, b"first"))
        with self.table.begin() as session:
            self.assertEqual((session.get(3), session.get(4)), (row(3, 444), row(4, 444)))

    def test_a_wait_ends_by_the_next_step(self) -> None:
        with self.assertRaises(sp.RolledBack), self.table.begin() as one, self.table.begin() as two:
            one.update(row(3, 333))
            two.update(row(4, 444))
            self.assertRaises(sp.Busy, one.update, row(4))
            self.assertEqual(one.get(4), row(4, 40, b"first"))
            self.assertRaises(sp.Busy, two.update, row(3))
            self.assertRaises(sp.Deadlock, one.update, row(4))

    def test_read_committed_reads_anew(self) -> None:
        by_snapshot, by_statement = self.table.begin(), self.table.begin(read_committed=True)
        with self.table.begin() as new:
            new.update(row(3, 333))
            with self.assertRaises(sp.Busy):
                by_statement.update(row(3))
        self.assertEqual(by_snapshot.get(3), row(3, 30, b"first"))
        self.assertEqual(by_statement.get(3), row(3, 333))
        cursor = by_statement.by_key(3, 3, 1)
        with self.table.begin(read_committed=True) as newer:
            newer.update(row(3, 444))
        self.assertEqual(list(cursor), [row(3, 333)])
        by_statement.update(row(3, 445))
        by_statement.commit()
        self.assertRaises(sp.Conflict, by_snapshot.update, row(3))

    def test_savepoints_take_back(self) -> None:
        with self.table.begin() as session:
            session.savepoint()
            session.update(row(5, 555))
            session.rollback_to()
            self.assertEqual(session.get(5), row(5, 50, b"first"))
            session.update(row(5, 555))
            session.release()
            self.assertRaises(sp.NoSavepoint, session.release)
        with self.table.begin() as session:
            self.assertEqual(session.get(5), row(5, 555))

    def test_cursors_fetch_a_batch_at_a_time(self) -> None:
        with self.table.begin() as session:
            session.update(row(3, 333))
            session.delete(4)
            rest = [1, 2, 5, 6, 7, 8, 9, 10]
            self.assertEqual(sorted(it.key for it in session.rows()), [1, 2, 3, 5, 6, 7, 8, 9, 10])
            for batch in (1, 2, 64, 65535):
                self.assertEqual([it.key for it in session.by_key(2, 5, batch)], [2, 3, 5])
                self.assertEqual([it.key for it in session.by_key(batch=batch)], [1, 2, 3, 5, 6, 7, 8, 9, 10])
                self.assertEqual([it.key for it in session.by_column(0, -5, 60, batch)], [1, 2, 5, 6])
                self.assertEqual([it.key for it in session.by_column(0, batch=batch)], [*rest, 3])
            self.assertRaises(sp.NoSuchIndex, session.by_column, 2)
            self.assertRaises(sp.BadBounds, session.by_column, 0, 1, 0)

    def test_a_cursor_is_closed_where_it_is_left(self) -> None:
        with self.table.begin() as session:
            cursor = session.by_key(batch=2)
            self.assertEqual(next(cursor).key, 1)
            self.assertRaises(sp.CursorOpen, session.delete, 1)
            self.assertRaises(sp.CursorOpen, session.rows)
            self.assertEqual(session.get(9), row(9, 90, b"first"))
            self.assertEqual([it.key for it in cursor], [2, 3, 4, 5, 6, 7, 8, 9, 10])
            session.delete(1)
            with session.rows() as cursor:
                next(cursor)
            session.delete(2)
            for it in session.rows():
                break
            gc.collect()
            session.delete(3)
            self.assertRaises(StopIteration, next, cursor)

    def test_a_cursor_ends_with_its_session(self) -> None:
        session = self.table.begin(7)
        cursor = session.by_key(batch=2)
        next(cursor)
        session.abort()
        with self.table.begin(7) as other, other.rows() as rows:
            # what was fetched and not handed out is gone with the session, and nothing of it comes late
            self.assertRaises(sp.NotOpen, next, cursor)
            self.assertRaises(sp.NotOpen, list, cursor)
            cursor.close()
            del cursor
            gc.collect()
            self.assertEqual(len(list(rows)), 10)

    def test_two_cursors_go_on_beside_each_other(self) -> None:
        with self.table.begin() as one, self.table.begin() as two:
            keys = [(a.key, b.key) for a, b in zip(one.by_key(batch=1), two.by_key(batch=3))]
        self.assertEqual(keys, [(key, key) for key in range(1, 11)])

    def test_rows_that_were_handed_out_stay(self) -> None:
        with self.table.begin() as session, self.table.begin() as other:
            for opened in (session.rows, session.by_key, lambda batch: session.by_column(0, batch=batch)):
                keys = []
                for it in opened(batch=3):
                    keys.append(it.key)
                    self.assertEqual(session.get(11 - it.key), row(11 - it.key, (11 - it.key) * 10, b"first"))
                    if it.key in (2, 9):
                        other.insert(row(100 + len(keys)))
                        other.delete(100 + len(keys))
                self.assertEqual(keys, list(range(1, 11)))

    def test_many_rows_by_one_call(self) -> None:
        with self.table.begin() as session:
            self.assertEqual(session.insert_many(row(key) for key in range(20, 30)), 10)
            self.assertEqual(session.update_many([row(key, 7) for key in range(20, 30)]), 10)
            self.assertEqual([it.cols[0] for it in session.by_key(20, 29)], [7] * 10)
            with self.assertRaises(sp.AlreadyThere) as there:
                session.insert_many([row(30), row(20), row(31)])
            self.assertEqual(there.exception.key, 20)
            self.assertIn("key 20", str(there.exception))
            self.assertEqual((session.get(30), session.get(31)), (row(30), None))
            self.assertEqual(session.insert_many([]), 0)

            def ends_the_session():
                yield row(40)
                session.abort()
                yield row(41)

            self.assertRaises(sp.NotOpen, session.insert_many, ends_the_session())
        with self.table.begin() as session:
            self.assertEqual((session.get(20), session.get(40)), (None, None))

    def test_a_refusal_names_the_key(self) -> None:
        with self.table.begin() as session, self.table.begin() as other:
            other.update(row(3, 333))
            for call, argument, kind in [
                (session.insert, row(5), sp.AlreadyThere),
                (session.update, row(12345), sp.NotThere),
                (session.delete, 12345, sp.NotThere),
                (session.update, row(3), sp.Busy),
                (session.insert, row(77, 0, b"x" * 1025), sp.TooLarge),
            ]:
                with self.assertRaises(kind) as refused:
                    call(argument)
                key = argument if isinstance(argument, int) else argument.key
                self.assertEqual(refused.exception.key, key)
                self.assertTrue(str(refused.exception).startswith(f"key {key}: "))

    def test_a_session_that_is_let_go_is_aborted(self) -> None:
        for _ in range(3 * sp.SESSIONS):
            with warnings.catch_warnings(record=True) as said:
                warnings.simplefilter("always")
                session = self.table.begin()
                session.insert(row(50))
                session.savepoint()
                cursor = session.rows()
                next(cursor)
                del session, cursor
                gc.collect()
            self.assertEqual([it.category for it in said], [ResourceWarning])
        with self.table.begin() as session:
            self.assertEqual(session.number, 0)
            self.assertIsNone(session.get(50))
        self.assertEqual(self.table.state().open_sessions, ())

    def test_a_savepoint_is_a_block(self) -> None:
        with self.table.begin() as session:
            with session.savepoint():
                session.update(row(3, 333))
                with self.assertRaises(KeyError), session.savepoint():
                    session.update(row(4, 444))
                    session.savepoint()
                    session.delete(5)
                    cursor = session.rows()
                    next(cursor)
                    raise KeyError
                self.assertEqual(list(cursor), [])
                self.assertEqual((session.get(4), session.get(5)), (row(4, 40, b"first"), row(5, 50, b"first")))
                session.savepoint()
                session.update(row(6, 666))
            self.assertRaises(sp.NoSavepoint, session.release)
        with self.table.begin() as session:
            self.assertEqual([session.get(key).cols[0] for key in (3, 4, 5, 6)], [333, 40, 50, 666])

    def test_a_block_that_failed_is_taken_back(self) -> None:
        old = self.table.begin()
        with self.table.begin() as new:
            new.update(row(3, 333))
        old.update(row(1, 111))
        with self.assertRaises(sp.Conflict), old.savepoint():
            old.update(row(2, 222))
            old.savepoint()
            old.update(row(3))
        self.assertEqual((old.get(1), old.get(2)), (row(1, 111), row(2, 20, b"first")))
        # also where the block itself says nothing
        with self.assertRaises(sp.Failed), old.savepoint():
            self.assertRaises(sp.Conflict, old.update, row(3))
        self.assertRaises(sp.NoSavepoint, old.release)
        old.commit()
        with self.table.begin() as session:
            self.assertEqual((session.get(1), session.get(3)), (row(1, 111), row(3, 333)))

    def test_a_block_may_end_its_savepoint_itself(self) -> None:
        with self.table.begin() as session:
            session.savepoint()
            with session.savepoint():
                session.update(row(3, 333))
                session.release()
            session.release()
            with self.assertRaises(KeyError), session.savepoint():
                session.commit()
                raise KeyError
        with self.table.begin() as session:
            self.assertEqual(session.get(3), row(3, 333))

    def test_a_session_is_asked_like_a_dictionary(self) -> None:
        with self.table.begin() as session:
            self.assertTrue(3 in session and 11 not in session)
            session.put(row(3, 333))
            session.put(row(11, 111))
            self.assertEqual(session.get_many([11, 3, 12, 3]), [row(11, 111), row(3, 333), None, row(3, 333)])
            self.assertEqual((len(session), session.delete_many(iter([3, 11])), len(session)), (11, 2, 9))
            with self.assertRaises(sp.NotThere) as refused:
                session.delete_many([1, 3, 2])
            self.assertEqual((refused.exception.key, len(session), 2 in session), (3, 8, True))
            with session.rows() as rows:
                next(rows)
                self.assertRaises(sp.CursorOpen, len, session)
            session.delete_many(list(session.keys()))
            self.assertEqual((len(session), bool(session)), (0, True))
            for call in (lambda: session["3"], lambda: iter(session), lambda: "3" in session):
                self.assertRaises(TypeError, call)

    def test_run_does_it_again(self) -> None:
        calls: list[object] = []

        def add(session: sp.Session) -> int:
            value = session.get(3).cols[0] + 1
            calls.append(value)
            if len(calls) == 1:
                with self.table.begin() as other:
                    other.update(row(3, 70))
            session.update(row(3, value))
            return value

        self.assertEqual(sp.run(self.table, add, sleep=calls.append), 71)
        self.assertEqual(calls, [31, 0.001, 71])
        # a session that holds the row lets go of it while it is waited for
        holder, waits = self.table.begin(), []
        holder.update(row(3, 100))

        def let_go(seconds: float) -> None:
            waits.append(seconds)
            if len(waits) == 3:
                holder.commit()

        self.assertEqual(sp.run(self.table, add, wait=1, sleep=let_go), 101)
        self.assertEqual((waits, self.table.state().open_sessions), ([1, 2, 4], ()))

    def test_run_gives_up(self) -> None:
        calls: list[object] = []

        def fail(kind: object) -> object:
            def function(session: sp.Session) -> None:
                calls.append(session.is_open)
                session.update(row(4, 444))
                raise kind

            return function

        for kind in (sp.Busy(3), sp.Conflict(), sp.Deadlock(), sp.RolledBack()):
            calls.clear()
            self.assertRaises(type(kind), sp.run, self.table, fail(kind), tries=3, sleep=calls.append)
            self.assertEqual(calls, [True, 0.001, True, 0.002, True])
        for kind in (sp.NotThere(), KeyError()):
            calls.clear()
            self.assertRaises(type(kind), sp.run, self.table, fail(kind), tries=3, sleep=calls.append)
            self.assertEqual(calls, [True])
        self.assertRaises(ValueError, sp.run, self.table, fail(KeyError()), tries=0)
        self.assertEqual(self.table.state().open_sessions, ())
        with self.table.begin() as session:
            self.assertEqual(session.get(4), row(4, 40, b"first"))
        # what the function keeps to itself is told by the commit
        def swallow(session: sp.Session) -> None:
            session.get(4)
            calls.append(len(calls))
            if len(calls) == 1:
                with self.table.begin() as other:
                    other.update(row(4, 1))
            try:
                session.update(row(4, 2))
            except sp.Conflict:
                pass

        calls.clear()
        sp.run(self.table, swallow, sleep=lambda _: None)
        self.assertEqual(calls, [0, 1])
        self.assertFalse(sp.run(self.table, lambda session: session).is_open)

        def read_twice(session: sp.Session) -> List[int]:
            before = session.get(3).cols[0]
            sp.run(self.table, lambda other: other.update(row(3, before + 1)))
            return [before, session.get(3).cols[0]]

        self.assertEqual(sp.run(self.table, read_twice), [30, 30])
        self.assertEqual(sp.run(self.table, read_twice, read_committed=True), [31, 32])

    def test_each_shows_what_it_is(self) -> None:
        session = self.table.begin(3)
        cursor, keys, ticket = session.rows(), self.table.begin(7).keys(), session.take_page(0)
        self.assertEqual(repr(self.table), "<sandpipercot.Table, open, sessions: 3, 7>")
        self.assertEqual(repr(session), "<sandpipercot.Session 3, open>")
        self.assertEqual(repr(cursor), "<sandpipercot.Cursor of session 3, open>")
        self.assertEqual(repr(keys), "<sandpipercot.KeyCursor of session 7, open>")
        self.assertEqual(repr(ticket), "<sandpipercot.Ticket of page 0, open>")
        ticket.close()
        session.commit()
        self.assertEqual([repr(it) for it in (session, cursor, ticket)], [
            "<sandpipercot.Session 3, ended>", "<sandpipercot.Cursor of session 3, closed>", "<sandpipercot.Ticket of page 0, closed>",
        ])
        self.assertEqual(repr(self.table), "<sandpipercot.Table, open, sessions: 7>")
        self.table.close()
        self.assertEqual(repr(keys), "<sandpipercot.KeyCursor of session 7, closed>")
        self.assertEqual(repr(self.table), "<sandpipercot.Table, closed>")
        self.assertEqual(sp.__version__, "0.4")

    def test_an_error_names_its_argument(self) -> None:
        table = self.table
        with table.begin() as session:
            for call, name in [
                (lambda: session.get("1"), "key"),
                (lambda: session.get(1.5), "key"),
                (lambda: session.delete(None), "key"),
                (lambda: session.insert(Row("1")), "key"),
                (lambda: session.insert(Row(11, (0, "x", 0, 0))), r"cols\[1\]"),
                (lambda: session.insert(Row(11, body="text")), "body"),
                (lambda: session.insert(5), "row"),
                (lambda: session.by_key("a"), "low"),
                (lambda: session.keys(0, "b"), "high"),
                (lambda: session.by_column("c"), "column"),
                (lambda: session.rows("d"), "batch"),
                (lambda: session.take_page("e"), "page"),
                (lambda: table.begin("f"), "number"),
                (lambda: table.page("g"), "page"),
                (lambda: table.create_index("h"), "column"),
                (lambda: table.apply_plan(0, "i"), "change"),
                (lambda: table.apply_plan(0, 0, [sp.Action("j", 0)]), "slot"),
                (lambda: Table(dead_limit="k"), "dead_limit"),
                (lambda: sp.check_page("l"), "page"),
            ]:
                self.assertRaisesRegex(TypeError, f"^{name} ", call)
            self.assertRaisesRegex(OverflowError, r"^key is not from 0 to 18446744073709551615: -1$", session.get, -1)
            self.assertRaisesRegex(OverflowError, r"^cols\[2\] ", session.insert, Row(11, (0, 0, 2**63, 0)))

    def test_places_change_no_answer(self) -> None:
        for wanted in (False, True):
            self.table.keep_places(wanted)
            with self.table.begin() as session:
                session.update(row(3, 31))
                self.assertEqual((session.get(3), session.get(4)), (row(3, 31), row(4, 40, b"first")))

    def test_a_table_tells_its_state(self) -> None:
        state = self.table.state()
        self.assertEqual(state, sp.State(4, 3, state.ids_left, 1, (), (10, 10, None, None, None), sp.Vacuum.NONE))
        session = self.table.begin(7)
        session.insert(row(11))
        self.table.vacuum_begin(aggressive=True)
        after = self.table.state()
        self.assertEqual(after, sp.State(5, 3, state.ids_left - 1, 1, (7,), (11, 11, None, None, None), sp.Vacuum.AGGRESSIVE))
        self.table.vacuum_cancel()
        self.table.vacuum_begin()
        self.assertEqual(self.table.state().vacuum, sp.Vacuum.NORMAL)
        session.commit()
        self.assertEqual(self.table.vacuum_step().kind, sp.PieceKind.VISITED_PAGE)
        page = self.table.page(0)
        # (the vacuum froze before the id of the session that was open as it began, and no further)
        self.assertEqual((page.all_visible, page.all_frozen, page.slots), (True, False, 11))
        self.table.vacuum_cancel()
        self.table.vacuum(aggressive=True)
        self.assertEqual(self.table.page(0), sp.Page(page.change + 1, True, True, 11))
        self.assertIsNone(self.table.page(1))

    def test_ids_left_are_those_that_can_be_given(self) -> None:
        with Table(stop_age=5) as table:
            for left in (5, 4, 3, 2, 1):
                self.assertEqual(table.state().ids_left, left)
                with table.begin() as session:
                    session.insert(row(left))
            self.assertEqual(table.state().ids_left, 0)
            with table.begin() as session:
                self.assertRaises(sp.NeedsFreeze, session.insert, row(9))

    def test_sessions_get_the_lowest_number(self) -> None:
        sessions = [self.table.begin() for _ in range(sp.SESSIONS)]
        self.assertEqual([it.number for it in sessions], list(range(64)))
        self.assertRaises(sp.NoSuchSession, self.table.begin)
        self.assertRaises(sp.AlreadyOpen, self.table.begin, 3)
        sessions[5].abort()
        self.assertEqual(self.table.begin().number, 5)
        self.assertRaises(sp.NotOpen, sessions[5].get, 1)

    def test_pages_can_be_looked_into(self) -> None:
        with self.table.begin() as session:
            session.update(row(3, 30, b"second"))
            session.delete(4)
        self.table.prune(0)
        slots = list(self.table.slots(0))
        self.assertEqual(len(slots), 11)
        self.assertEqual(slots[0], sp.Slot(sp.Kind.NORMAL, 0, 3, 0, 1))
        self.assertEqual(slots[2], sp.Slot(sp.Kind.REDIRECT, 11, 0, 0, 0))
        self.assertEqual(slots[3], sp.Slot(sp.Kind.DEAD, 0, 0, 0, 0))
        self.assertEqual(list(self.table.slots(1)), [])
        self.assertRaises(sp.NoSuchPage, self.table.prune, 1)

    def test_keys_alone(self) -> None:
        self.table.vacuum()
        self.assertTrue(self.table.page(0).all_visible)
        with self.table.begin() as old:
            self.assertEqual(list(old.keys()), list(range(1, 11)))
            self.assertEqual(list(old.keys(3, 5, batch=1)), [3, 4, 5])
            self.assertEqual(list(old.keys(11, 2**64 - 1)), [])
            self.assertRaises(sp.BadBounds, old.keys, 5, 3)
            with self.table.begin() as new:
                new.delete(3)
                new.insert(row(11))
                new.update(row(4, 444))
                self.assertEqual(list(new.keys(2)), [2, *range(4, 12)])
            with old.keys() as keys:
                self.assertEqual(next(keys), 1)
                self.assertRaises(sp.CursorOpen, old.keys)
            self.assertEqual(list(old.keys()), list(range(1, 11)))
        with self.table.begin(read_committed=True) as session:
            self.assertEqual(list(session.keys()), [1, 2, *range(4, 12)])

    def test_a_ticket_is_read_at_any_time(self) -> None:
        first = [row(key, key * 10, b"first") for key in range(1, 11)]
        with self.table.begin() as old:
            ticket = old.take_page(0)
            self.assertEqual(ticket.rows(), first)
            self.assertRaises(sp.NoSuchPage, old.take_page, 1)
            with self.table.begin() as new:
                new.delete(1)
                new.update(row(2, 222, b"second"))
                with new.take_page(0) as inner:
                    self.assertEqual(sorted(inner.rows()), sorted([row(2, 222, b"second"), *first[2:]]))
                self.assertRaises(sp.NoTicket, inner.rows)
            with old.take_page(0) as again:
                self.assertEqual(again.rows(), first)
        self.table.vacuum()
        self.table.close()
        found: list[list[Row]] = []
        thread = threading.Thread(target=lambda: found.append(ticket.rows()))
        thread.start()
        thread.join()
        self.assertEqual(found, [first])
        ticket.close()
        ticket.close()
        self.assertFalse(ticket.is_open)

    def test_a_plan_is_applied_while_it_checks(self) -> None:
        with self.table.begin() as session:
            session.update(row(3, 30, b"second"))
            session.delete(4)
        change = self.table.page(0).change
        plan = [sp.Action(3, sp.ActionKind.LEAD, 11), sp.Action(4, sp.ActionKind.KILL)]
        self.assertRaises(sp.NoSuchPage, self.table.apply_plan, 1, change, plan)
        self.assertRaises(sp.Stale, self.table.apply_plan, 0, change - 1, plan)
        self.assertRaises(sp.Stale, self.table.apply_plan, 0, change, plan[::-1])
        self.table.apply_plan(0, change, plan)
        slots = list(self.table.slots(0))
        self.assertEqual(slots[2], sp.Slot(sp.Kind.REDIRECT, 11, 0, 0, 0))
        self.assertEqual(slots[3], sp.Slot(sp.Kind.DEAD, 0, 0, 0, 0))

    def test_an_index_is_made_in_use(self) -> None:
        before, by_statement = self.table.begin(), self.table.begin(read_committed=True)
        with self.table.begin() as session:
            session.update(Row(3, (30, 7, 0, 0), b"second"))
            self.assertRaises(sp.IndexBusy, self.table.create_index, 1)
        self.table.vacuum_begin()
        self.assertRaises(sp.VacuumRunning, self.table.create_index, 1)
        self.table.create_index(0)
        self.table.vacuum_cancel()
        self.assertRaises(sp.NoSuchIndex, self.table.create_index, 4)
        self.assertRaises(sp.NoSuchIndex, lambda: list(before.by_column(1)))
        self.table.create_index(1)
        self.assertRaises(sp.IndexTooNew, lambda: list(before.by_column(1)))
        self.assertEqual(before.get(3), row(3, 30, b"first"))
        self.assertEqual([it.key for it in by_statement.by_column(1, 1, 9)], [3])
        with self.table.begin() as session:
            self.assertEqual([it.key for it in session.by_column(1)], [1, 2, 4, 5, 6, 7, 8, 9, 10, 3])
        before.abort()
        by_statement.abort()

    def test_a_vacuum_frees_slots(self) -> None:
        with self.table.begin() as session:
            session.delete(4)
        self.assertRaises(sp.NoVacuum, self.table.vacuum_step)
        self.assertRaises(sp.NoVacuum, self.table.vacuum_cancel)
        self.table.vacuum_begin()
        self.assertRaises(sp.VacuumRunning, self.table.vacuum_begin, True)
        self.assertEqual(self.table.vacuum_step(), sp.Piece(sp.PieceKind.VISITED_PAGE, 0, 0))
        self.table.vacuum_cancel()
        self.table.vacuum_begin(aggressive=True)
        did = [self.table.vacuum_step() for _ in range(5)]
        self.assertEqual(
            did,
            [
                sp.Piece(sp.PieceKind.VISITED_PAGE, 0, 0),
                sp.Piece(sp.PieceKind.REMOVED_ENTRIES, 0, 0),
                sp.Piece(sp.PieceKind.REMOVED_ENTRIES, 1, 0),
                sp.Piece(sp.PieceKind.FREED_SLOTS, 0, 0),
                sp.Piece(sp.PieceKind.NO_PIECE, 0, 5),
            ],
        )
        self.assertEqual(list(self.table.slots(0))[3].kind, sp.Kind.UNUSED)
        with self.table.begin() as session:
            session.insert(row(11))
        self.assertEqual(list(self.table.slots(0))[3].key, 11)
        self.assertEqual(self.table.vacuum(), 5)

    def test_what_does_not_fit_is_refused(self) -> None:
        with self.table.begin() as session:
            for key in (-1, 2**64):
                self.assertRaises(OverflowError, session.get, key)
                self.assertRaises(OverflowError, session.insert, row(key))
            for column in (-(2**63) - 1, 2**63):
                self.assertRaises(OverflowError, session.insert, row(11, column))
            self.assertRaises(ValueError, session.insert, Row(11, (1, 2, 3)))
            for length in (1025, 65536, 1 << 20):
                self.assertRaises(sp.TooLarge, session.insert, row(11, 0, b"x" * length))
            self.assertRaises(OverflowError, session.by_key, 0, 2**64)
            self.assertRaises(OverflowError, session.by_key, 0, 1, 65536)
            for column in (-2, -1, 4, 255):
                self.assertRaises(sp.NoSuchIndex, session.by_column, column)
            self.assertRaises(TypeError, session.insert, Row(11, (1.5, 0, 0, 0)))
            for body in ("text", 5, None):
                self.assertRaises(TypeError, session.insert, Row(11, body=body))
            session.insert(Row(12, body=bytearray(b"bytes")))
            session.insert(Row(13, body=memoryview(b"bytes")))
            self.assertEqual([it.body for it in session.by_key(12, 13)], [b"bytes"] * 2)
            self.assertRaises(ValueError, session.rows, 0)
            self.assertRaises(OverflowError, self.table.begin, 256)
            self.assertRaises(OverflowError, self.table.prune, 1 << 32)
            self.assertIsNone(session.get(11))

    def test_a_table_that_is_closed_stays_so(self) -> None:
        session = self.table.begin()
        self.table.close()
        self.table.close()
        self.assertFalse(self.table.is_open or session.is_open)
        self.assertRaises(sp.NoEngine, session.get, 1)
        self.assertRaises(sp.NoEngine, self.table.begin)

    def test_a_block_whose_table_was_closed_says_so(self) -> None:
        with self.assertRaises(sp.NoEngine), self.table.begin() as session:
            session.insert(row(11))
            self.table.close()

    def test_what_was_not_made_is_let_go_in_silence(self) -> None:
        self.assertRaises(TypeError, Table, foo=1)
        self.assertRaises(TypeError, sp.Cursor)
        self.assertRaises(TypeError, sp.Session)
        gc.collect()

    def test_an_aggressive_vacuum_lets_ids_be_given(self) -> None:
        with Table(stop_age=1, first_xid=4294967295) as table:
            with table.begin() as session:
                session.insert(row(1))
            with table.begin() as session:
                self.assertRaises(sp.NeedsFreeze, session.insert, row(2))
            self.assertEqual(table.vacuum(), 4294967295)
            self.assertEqual(table.vacuum(aggressive=True), 3)
            with table.begin() as session:
                session.insert(row(2))

    def test_settings_are_refused(self) -> None:
        for name, value, refusal in [
            ("max_pages", 0, sp.BadMaxPages),
            ("stop_age", 0, sp.BadStopAge),
            ("freeze_min_age", 1000000001, sp.BadFreezeMinAge),
            ("first_xid", 2, sp.BadFirstXid),
            ("dead_limit", 0, sp.BadDeadLimit),
        ]:
            self.assertRaises(refusal, Table, **{name: value})
        self.assertRaises(OverflowError, Table, max_pages=-1)
        self.assertRaises(ValueError, Table, indexed=(True,))

    def test_a_table_stays_on_its_thread(self) -> None:
        faults: list[BaseException] = []

        def call() -> None:
            try:
                self.table.begin()
            except RuntimeError as fault:
                faults.append(fault)

        thread = threading.Thread(target=call)
        thread.start()
        thread.join()
        self.assertEqual(len(faults), 1)


if __name__ == "__main__":
    # (that a session is let go open is said, and several tests do it)
    unittest.main(warnings="ignore")
