"""Runs the scripts of tests/looks/cases by the Python module, and compares what the looks tell with the answers there. Then looks by closed and
failed sessions, by session 64, at a page that isn't there, and the sentences."""
from __future__ import annotations

import pathlib
import random
import re
import unittest
from typing import Any, Callable, Dict, Iterator, List, Optional

import sandpipercot as sp
from sandpipercot import FateKind, Holder, IdStatusKind, ReasonKind, Row, Session, Table
from sandpipercot.looks import Looks

CASES = pathlib.Path(__file__).resolve().parent.parent / "looks" / "cases"
LOOKS = {"explain", "session", "horizon", "fate", "plan", "vacuum"}
STANDINGS = ("before {}", "not before {}", "listed", "unlisted")
SEEN = {ReasonKind.BEFORE, ReasonKind.UNLISTED, ReasonKind.PARENT_BEFORE, ReasonKind.PARENT_UNLISTED}
# the numbers and names of refusals in scripts (docs/rules.md)
REFUSED = {
    sp.NotOpen: "error 1 NotOpen",
    sp.NoSuchSession: "error 23 NoSuchSession",
    sp.NoSuchPage: "error 19 NoSuchPage",
}


def touch(reason: Optional[sp.Reason], nobody: str) -> str:
    """A maker or deleter as the design's cases spell it."""
    if reason is None:
        return nobody
    plain = {ReasonKind.OWN: "own", ReasonKind.FORGOTTEN: "forgotten", ReasonKind.ABORTED: "aborted"}
    if reason.kind in plain:
        return f"{reason.id} {plain[reason.kind]}"
    if reason.kind == ReasonKind.RUNNING:
        return f"{reason.id} running {reason.session}"
    seen = "seen" if reason.kind in SEEN else "unseen"
    standing = STANDINGS[(reason.kind - ReasonKind.BEFORE) % 4].format(reason.limit)
    parent = f"parent {reason.parent} " if reason.kind >= ReasonKind.PARENT_BEFORE else ""
    return f"{reason.id} {seen} {parent}{standing}"


def holder(horizon: sp.Horizon) -> str:
    by = {Holder.NEXT_ID: "next", Holder.BY_SNAPSHOT: f"snapshot {horizon.session}", Holder.BY_ID: f"id {horizon.session}"}
    return f"horizon {horizon.id} {by[horizon.holder]}"


def leads(fate: sp.Fate) -> str:
    if fate.kind == FateKind.REDIRECT_SLOT:
        return f"redirect {fate.target}"
    return "dead" if fate.kind == FateKind.DEAD_SLOT else "root"


def told_fate(fate: sp.Fate, owner: Optional[int]) -> str:
    """Its words in the cases; `owner` is the session that has the deleter of a version that stays."""
    kept = {
        IdStatusKind.ID_RUNNING: f"running {owner}",
        IdStatusKind.ID_ABORTED: "aborted",
        IdStatusKind.ID_COMMITTED: holder(fate.horizon),
        IdStatusKind.ID_UNKNOWN: "",
    }
    words = {
        FateKind.NO_SLOT: "none",
        FateKind.UNUSED_SLOT: "unused",
        FateKind.DEAD_SLOT: "dead",
        FateKind.REDIRECT_SLOT: f"redirect {fate.target}",
        FateKind.GOES_ROLLED_BACK: f"dead aborted {fate.id}",
        FateKind.GOES_DELETED: f"dead deleted {fate.id} before {fate.horizon.id}",
        FateKind.GOES_WITH: f"goes with {fate.target}",
        FateKind.STAYS: "kept undeleted",
        FateKind.STAYS_DELETED: f"kept deleter {fate.id} {kept[fate.status]}",
    }
    return words[fate.kind]


class Run:
    """A script, done by the module."""

    def __init__(self, heading: str) -> None:
        pages, stop, least, first, dead = map(int, heading.split()[1:6])
        flags = [it == "1" for it in heading.split()[6]]
        self.table = Table(
            max_pages=pages, stop_age=stop, freeze_min_age=least, first_xid=first, dead_limit=dead, indexed=flags
        )
        self.sessions: Dict[int, Session] = {}
        self.cursors: Dict[int, Any] = {}

    def explain(self, session: int, key: int) -> Iterator[str]:
        told = Looks(self.table._call).explain(session, key)
        yield f"explain {session} {key} entries {len(told.entries)}"
        for entry in told.entries:
            yield f"entry {entry.page} {entry.slot} {leads(entry.fate)}"
            for it in entry.versions:
                verdict = "seen" if it.is_seen else "hidden"
                yield f"version {entry.page} {it.slot} {verdict} maker {touch(it.maker, 'frozen')} deleter {touch(it.deleter, 'none')}"

    def session(self, number: int) -> Iterator[str]:
        told = Looks(self.table._call).state_of(number)
        kind, state = "statement" if told.is_by_statement else "snapshot", "failed" if told.has_failed else "ready"
        yield f"session {number} {kind} {state} savepoints {told.savepoints}"
        if told.snapshot is None:
            yield "snapshot none"
        else:
            it = told.snapshot
            overflowed = "overflowed " if it.is_overflowed else ""
            yield " ".join([f"snapshot {it.xmin} {it.xmax} {overflowed}listed {len(it.listed)}", *map(str, it.listed)])
        yield " ".join(["ids", *map(str, told.ids)])
        yield f"cursor {('none', 'index', 'heap', 'keys')[told.cursor]}"
        yield f"waits {'none' if told.waits_for is None else told.waits_for}"

    def fate(self, page: int, slot: int) -> Iterator[str]:
        fate = self.table.fate(page, slot)
        yield f"fate {page} {slot} {told_fate(fate, self.table.status_of(fate.id).session)}"

    def plan(self, page: int) -> Iterator[str]:
        plan = self.table.plan(page)
        actions = [f"{'udr'[it.kind]}{it.slot}" + (f":{it.target}" if it.kind == sp.ActionKind.LEAD else "") for it in plan.actions]
        yield " ".join([f"plan {page} {plan.change}", *actions])

    def vacuum(self) -> Iterator[str]:
        try:
            it = self.table.vacuum_state()
        except sp.NoVacuum:
            yield "vacuum none"
            return
        mode, phase = "aggressive" if it.is_aggressive else "normal", ("heap", "index", "free")[it.phase]
        yield f"vacuum {mode} {phase} next {it.next_page} collected {it.collected} horizon {it.horizon} cutoff {it.cutoff}"

    def look(self, word: str, numbers: List[int]) -> List[str]:
        try:
            if word == "horizon":
                return [holder(self.table.horizon())]
            return list(getattr(self, word)(*numbers))
        except sp.Refused as refused:
            return [REFUSED[type(refused)]]

    def step(self, word: str, words: List[str]) -> None:
        """Does a step, whatever it answers: these answers are compared elsewhere."""
        if word == "vacuum":
            steps: Dict[str, Callable[[], object]] = {
                "begin": lambda: self.table.vacuum_begin(words[1] == "aggressive"),
                "step": self.table.vacuum_step,
                "finish": self.finish,
            }
            steps[words[0]]()
            return
        numbers = [int(it) for it in words if it != "-"]
        if word == "prune":
            self.table.prune(numbers[0])
        elif word in ("begin", "beginrc"):
            self.sessions[numbers[0]] = self.table.begin(numbers[0], read_committed=word == "beginrc")
        elif word == "openheap":
            self.cursors[numbers[0]] = self.sessions[numbers[0]].rows()
        elif word == "next":
            next(self.cursors[numbers[0]])
        elif word == "close":
            self.cursors.pop(numbers[0]).close()
        elif word in ("insert", "update"):
            getattr(self.sessions[numbers[0]], word)(Row(numbers[1], tuple(numbers[2:6])))
        elif word == "rollbackto":
            self.sessions[numbers[0]].rollback_to()
        else:
            getattr(self.sessions[numbers[0]], word)(*numbers[1:])

    def finish(self) -> None:
        while self.table.vacuum_step().kind != sp.PieceKind.NO_PIECE:
            pass

    def answer(self, line: str) -> Optional[List[str]]:
        """What a look is told, or None for a step."""
        word, *words = line.split()
        if word in LOOKS and not (word == "vacuum" and words):
            return self.look(word, [int(it) for it in words])
        try:
            self.step(word, words)
        except sp.Refused:
            pass
        return None


def expected(lines: List[str]) -> Iterator[str]:
    """The lines of looks among the answers."""
    of_looks = r"(explain|entry|version|session|snapshot|ids|cursor|waits|horizon|fate|plan|vacuum)\b"
    return (it for it in lines if re.match(of_looks, it) or it in REFUSED.values())


class LooksTest(unittest.TestCase):
    def test_cases(self) -> None:
        scripts = sorted(CASES.glob("*.script"))
        self.assertEqual(len(scripts), 12)
        for script in scripts:
            with self.subTest(script.stem):
                heading, *lines = script.read_text().splitlines()
                run = Run(heading)
                answers = [it for line in lines for it in run.answer(line) or ()]
                self.assertEqual(answers, list(expected(script.with_suffix(".expected").read_text().splitlines())))
                run.table.close()

    def test_sentences(self) -> None:
        run = Run("heap 4 1000 0 3 64 0000")
        for line in (CASES / "older_reader.script").read_text().splitlines()[1:12]:
            run.answer(line)
        session = run.sessions[1]
        told = session.explain(1)
        self.assertEqual(
            [str(it) for it in told.entries[0].versions],
            [
                "Slot 1 is seen: made by 3, which had committed when the snapshot was taken, as it is before 4; taken away by 4, which is"
                " not before 4, the next id when the snapshot was taken.",
                "Slot 2 is hidden: made by 4, which is not before 4, the next id when the snapshot was taken.",
                "Slot 3 is hidden: made by 5, which is not before 4, the next id when the snapshot was taken.",
            ],
        )
        self.assertEqual(told.seen, told.entries[0].versions[0])
        with run.table.begin() as later:
            self.assertEqual(
                str(later.explain(1).entries[0].versions[0]),
                "Slot 1 is hidden: made by 3, which had committed when the snapshot was taken, as it is before 6; taken away by 4, which had"
                " committed when the snapshot was taken, as it is before 6.",
            )
        self.assertEqual(str(told).splitlines()[-1], "Session 1 reads the row of key 1.")
        self.assertEqual(str(session.explain(2)), "Session 1 reads no row of key 2.")
        self.assertEqual(session.snapshot, sp.Snapshot(4, 4, False, ()))
        self.assertEqual(str(session.snapshot), "It sees what committed before 4, and nothing from 4 on. In progress then: none.")
        self.assertEqual(session.ids, ())
        self.assertEqual(str(run.table.horizon()), "The horizon is 4: session 1 holds it back by its snapshot.")
        self.assertEqual(
            str(run.table.fate(0, 1)),
            "Slot 1 of page 0 stays: 4 deleted it, and is not before the horizon. The horizon is 4: session 1 holds it back by its"
            " snapshot.",
        )
        self.assertEqual(str(run.table.fate(0, 3)), "Slot 3 of page 0 stays: nobody deleted it.")
        self.assertEqual(str(run.table.status_of(4)), "Id 4 has committed.")
        self.assertEqual(str(run.table.status_of(6)), "Id 6 was not given, or is forgotten.")
        self.assertEqual(str(run.table.plan(0)), "A pruning of page 0 would do nothing.")
        session.abort()
        self.assertEqual(str(run.table.horizon()), "The horizon is 6, the next id: nobody holds it back.")
        self.assertEqual(str(run.table.fate(0, 1)), "Slot 1 of page 0 goes: 4 deleted it, and is before the horizon, 6.")
        plan = run.table.plan(0)
        self.assertEqual(str(plan), "A pruning of page 0 would do this: slot 1 leads to slot 3, slot 2 becomes unused.")
        run.table.apply_plan(plan.page, plan.change, plan.actions)
        self.assertEqual(str(run.table.fate(0, 1)), "Slot 1 of page 0 leads to slot 3.")
        with self.assertRaises(sp.Stale):
            run.table.apply_plan(plan.page, plan.change, plan.actions)
        run.table.close()

    def test_refusals(self) -> None:
        with Table() as table:
            looks = Looks(table._call)
            for number, kind in ((0, sp.NotOpen), (63, sp.NotOpen), (64, sp.NoSuchSession), (255, sp.NoSuchSession)):
                for look in (lambda: looks.explain(number, 1), lambda: looks.state_of(number)):
                    with self.assertRaises(kind):
                        look()
            for page in (0, 1, 2**32 - 1):
                for ask in (lambda: table.fate(page, 1), lambda: table.plan(page)):
                    with self.assertRaises(sp.NoSuchPage):
                        ask()
            with self.assertRaises(sp.NoVacuum):
                table.vacuum_state()
            self.assertEqual(table.status_of(3), sp.IdStatus(3, IdStatusKind.ID_UNKNOWN, None))
            session = table.begin()
            session.insert(Row(1))
            self.assertEqual(table.status_of(3), sp.IdStatus(3, IdStatusKind.ID_RUNNING, 0))
            self.assertEqual(session.ids, (3,))
            with session.savepoint():
                session.savepoint()
                session.insert(Row(2))
                self.assertEqual(session.state().levels, ((3,), (4,), (5,)))
                session.release()
                self.assertEqual(session.state().levels, ((3,), (4, 5)))
            self.assertEqual(session.state().levels, ((3, 4, 5),))
            session.abort()
            for call in (lambda: session.explain(1), lambda: session.ids, lambda: session.snapshot, session.state):
                with self.assertRaises(sp.NotOpen):
                    call()
        for ask in (table.horizon, lambda: table.fate(0, 1), lambda: table.plan(0), lambda: table.status_of(3), table.vacuum_state):
            with self.assertRaises(sp.NoEngine):
                ask()

    def test_looks_are_no_steps(self) -> None:
        """A wait goes on, and ends by the next step."""
        with Table() as table:
            one, other = table.begin(0), table.begin(1)
            one.insert(Row(1))
            with self.assertRaises(sp.Busy):
                other.insert(Row(1))
            for _ in range(2):
                self.assertEqual(other.state().waits_for, 0)
                self.assertEqual(len(other.explain(1).entries), 1)
                for look in (table.horizon, lambda: table.fate(0, 1), lambda: table.plan(0), lambda: table.status_of(3)):
                    look()
            other.get(1)
            self.assertIsNone(other.state().waits_for)
            one.abort()
            other.abort()

    def test_explanations_show_what_is_read(self) -> None:
        """What is shown as seen is what a get finds, and each pruning takes what its fate said, beside sessions that come and go."""
        draw, seen, gone = random.Random(4), 0, 0
        with Table(max_pages=8, stop_age=100000, indexed=(True, False, False, False)) as table:
            sessions: Dict[int, Session] = {}
            for _ in range(4000):
                go_on(draw, table, sessions)
                for session in sessions.values():
                    if session.state().has_failed:
                        continue
                    key = draw.randrange(6)
                    versions = [it for entry in session.explain(key).entries for it in entry.versions]
                    shown = [it for it in versions if it.is_seen]
                    self.assertEqual(len(shown), 0 if session.get(key) is None else 1)
                    self.assertEqual(shown, [it for it in versions if adds_up(it)])
                    seen += len(shown)
                gone += self.prune(table) if draw.random() < 0.1 else 0
            for session in sessions.values():
                session.abort()
        self.assertGreater(seen, 2000)
        self.assertGreater(gone, 100)
        print(f"{seen} rows that are read are explained, and {gone} versions that pruning takes are foretold")

    def prune(self, table: Table) -> int:
        """How many versions a pruning of page 0 takes: those whose fate says so."""
        if table.page(0) is None:
            return 0
        before = [it.kind == sp.Kind.NORMAL for it in table.slots(0)]
        fates = [table.fate(0, slot + 1) for slot in range(len(before))]
        table.prune(0)
        after = [it.kind == sp.Kind.NORMAL for it in table.slots(0)]
        self.assertEqual([fate.goes for fate in fates], [was and not now for was, now in zip(before, after)])
        return sum(fate.goes for fate in fates)


def adds_up(version: sp.ShownVersion) -> bool:
    """Whether a version is seen, by its reasons: its making counts, and no deletion does."""
    made = version.maker is None or version.maker.kind.counts
    return made and not (version.deleter is not None and version.deleter.kind.counts)


def go_on(draw: random.Random, table: Table, sessions: Dict[int, Session]) -> None:
    """Some step of some session, whatever it answers."""
    number = draw.randrange(4)
    session = sessions.get(number)
    if session is None:
        sessions[number] = table.begin(number, read_committed=draw.random() < 0.3)
        return
    key, kind = draw.randrange(6), 11 if session.state().has_failed else draw.randrange(12)
    try:
        if kind < 6:
            session.put(Row(key, (draw.randrange(3), 0, 0, 0)))
        elif kind == 6:
            session.delete(key)
        elif kind == 7:
            session.savepoint()
        elif kind == 8:
            session.rollback_to()
        elif kind == 9:
            table.vacuum(draw.random() < 0.3)
        else:
            sessions.pop(number).commit() if kind == 10 else sessions.pop(number).abort()
    except (sp.Refused, sp.RolledBack):
        pass


if __name__ == "__main__":
    unittest.main()
