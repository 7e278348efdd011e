"""Looks: why a session sees what it sees, who holds the horizon back, and what pruning would do. Each prints as English sentences.

They change nothing: no session's wait ends by one, and no vacuum is disturbed."""
from __future__ import annotations

import ctypes
import enum
from dataclasses import dataclass
from typing import Any, Callable, Iterator, List, NamedTuple, Optional, Tuple

from . import _c
from .statuses import Status


class ReasonKind(enum.IntEnum):
    """Why a session counts what an id did, or does not: the first of these that holds. From BEFORE on the id has committed."""

    NOBODY = 0
    OWN = 1
    FORGOTTEN = 2
    RUNNING = 3
    ABORTED = 4
    BEFORE = 5
    NOT_BEFORE = 6
    LISTED = 7
    UNLISTED = 8
    PARENT_BEFORE = 9
    PARENT_NOT_BEFORE = 10
    PARENT_LISTED = 11
    PARENT_UNLISTED = 12

    @property
    def counts(self) -> bool:
        """Whether what the id did counts."""
        return self in COUNTING


COUNTING = {ReasonKind.OWN, ReasonKind.BEFORE, ReasonKind.UNLISTED, ReasonKind.PARENT_BEFORE, ReasonKind.PARENT_UNLISTED}


class CursorKind(enum.IntEnum):
    """What a session's cursor goes over."""

    NO_CURSOR_OPEN = 0
    INDEX_CURSOR = 1
    HEAP_CURSOR = 2
    KEY_CURSOR = 3


class Holder(enum.IntEnum):
    """By what the horizon is held back."""

    NEXT_ID = 0
    BY_SNAPSHOT = 1
    BY_ID = 2


class IdStatusKind(enum.IntEnum):
    """What became of an id."""

    ID_UNKNOWN = 0
    ID_RUNNING = 1
    ID_COMMITTED = 2
    ID_ABORTED = 3


class FateKind(enum.IntEnum):
    """What pruning would do to a slot, and why not more."""

    NO_SLOT = 0
    UNUSED_SLOT = 1
    DEAD_SLOT = 2
    REDIRECT_SLOT = 3
    GOES_ROLLED_BACK = 4
    GOES_DELETED = 5
    GOES_WITH = 6
    STAYS = 7
    STAYS_DELETED = 8


class Phase(enum.IntEnum):
    """The work of a vacuum's next step."""

    VISITS_PAGES = 0
    GOES_THROUGH_INDEX = 1
    FREES_SLOTS = 2


class ActionKind(enum.IntEnum):
    """What a plan does to a slot: it becomes unused or dead, or leads to another."""

    UNUSE = 0
    KILL = 1
    LEAD = 2


class Action(NamedTuple):
    """What a plan does to a slot, counted from 1, and to which slot that is to lead, of kind LEAD."""

    slot: int
    kind: ActionKind
    target: int = 0


THEN = "when the snapshot was taken"


@dataclass(frozen=True)
class Reason:
    """An id that made a version or took it away, and why the session counts that, or does not."""

    id: int
    kind: ReasonKind
    limit: int = 0
    parent: int = 0
    session: Optional[int] = None

    def __str__(self) -> str:
        child = f"{self.id}, a child of {self.parent}"
        return {
            ReasonKind.NOBODY: "nobody",
            ReasonKind.OWN: f"{self.id}, the session's own",
            ReasonKind.FORGOTTEN: f"{self.id}, which is not remembered",
            ReasonKind.RUNNING: f"{self.id}, which is in progress in session {self.session}",
            ReasonKind.ABORTED: f"{self.id}, which was rolled back",
            ReasonKind.BEFORE: f"{self.id}, which had committed {THEN}, as it is before {self.limit}",
            ReasonKind.NOT_BEFORE: f"{self.id}, which is not before {self.limit}, the next id {THEN}",
            ReasonKind.LISTED: f"{self.id}, which was in progress {THEN}",
            ReasonKind.UNLISTED: f"{self.id}, which had committed {THEN}",
            ReasonKind.PARENT_BEFORE: f"{child}, which had committed {THEN}, as it is before {self.limit}",
            ReasonKind.PARENT_NOT_BEFORE: f"{child}, which is not before {self.limit}, the next id {THEN}",
            ReasonKind.PARENT_LISTED: f"{child}, which was in progress {THEN}",
            ReasonKind.PARENT_UNLISTED: f"{child}, which had committed {THEN}",
        }[self.kind]


@dataclass(frozen=True)
class ShownVersion:
    """A version of a row, and why the session sees it, or does not. The maker of one that is frozen is None, and so is the deleter where
    nobody took the version away."""

    slot: int
    is_seen: bool
    maker: Optional[Reason]
    deleter: Optional[Reason]

    def __str__(self) -> str:
        made = "frozen, so it counts for everybody" if self.maker is None else f"made by {self.maker}"
        if self.is_seen:
            gone = "" if self.deleter is None else f"; taken away by {self.deleter}"
        elif self.maker is not None and not self.maker.kind.counts:
            gone = ""
        else:
            gone = f"; taken away by {self.deleter}"
        return f"Slot {self.slot} is {'seen' if self.is_seen else 'hidden'}: {made}{gone}."


@dataclass(frozen=True)
class ShownEntry:
    """An entry of a key: the place to which it leads, what is in that slot, and the versions of the chain there."""

    page: int
    slot: int
    fate: Fate
    versions: Tuple[ShownVersion, ...]

    def __str__(self) -> str:
        return "\n".join([f"An entry leads to page {self.page}, slot {self.slot}.", *map(str, self.versions)])


@dataclass(frozen=True)
class Explanation:
    """Why a session sees the row of a key, or none: the key's entries, with the versions of each."""

    session: int
    key: int
    entries: Tuple[ShownEntry, ...]

    @property
    def seen(self) -> Optional[ShownVersion]:
        """The version that is seen, if one is."""
        return next((it for entry in self.entries for it in entry.versions if it.is_seen), None)

    def __str__(self) -> str:
        last = f"Session {self.session} reads {'no row' if self.seen is None else 'the row'} of key {self.key}."
        return "\n".join([*map(str, self.entries), last])


@dataclass(frozen=True)
class Snapshot:
    """The snapshot that a session keeps."""

    xmin: int
    xmax: int
    is_overflowed: bool
    listed: Tuple[int, ...]

    def __str__(self) -> str:
        between = ", ".join(map(str, self.listed)) or "none"
        parents = "; of others the topmost parent is asked" if self.is_overflowed else ""
        return f"It sees what committed before {self.xmin}, and nothing from {self.xmax} on. In progress then: {between}{parents}."


@dataclass(frozen=True)
class SessionState:
    """An open session: how it reads, whether it has failed, its savepoints, its own ids, its snapshot, its cursor, for whom it waits.

    levels has its own ids level by level, the oldest first: those of level n came since savepoint n.
    """

    session: int
    is_by_statement: bool
    has_failed: bool
    savepoints: int
    ids: Tuple[int, ...]
    levels: Tuple[Tuple[int, ...], ...]
    snapshot: Optional[Snapshot]
    cursor: CursorKind
    waits_for: Optional[int]

    def __str__(self) -> str:
        parts = [f"reads by {'statement' if self.is_by_statement else 'snapshot'}"]
        parts += ["has failed"] if self.has_failed else []
        parts += [f"has written under {', '.join(map(str, self.ids))}"] if self.ids else []
        parts += [f"waits for session {self.waits_for}"] if self.waits_for is not None else []
        return f"Session {self.session} {', '.join(parts)}."


@dataclass(frozen=True)
class Horizon:
    """The horizon, and who holds it back: what an id before it deleted may go."""

    id: int
    holder: Holder
    session: Optional[int]

    def __str__(self) -> str:
        if self.session is None:
            return f"The horizon is {self.id}, the next id: nobody holds it back."
        held = "its snapshot" if self.holder == Holder.BY_SNAPSHOT else "its first id"
        return f"The horizon is {self.id}: session {self.session} holds it back by {held}."


@dataclass(frozen=True)
class IdStatus:
    """What became of an id, and the open session that has it, if one has."""

    id: int
    kind: IdStatusKind
    session: Optional[int]

    def __str__(self) -> str:
        became = {
            IdStatusKind.ID_UNKNOWN: "was not given, or is forgotten",
            IdStatusKind.ID_RUNNING: "is in progress",
            IdStatusKind.ID_COMMITTED: "has committed",
            IdStatusKind.ID_ABORTED: "was rolled back",
        }[self.kind]
        return f"Id {self.id} {became}{'' if self.session is None else f' in session {self.session}'}."


@dataclass(frozen=True)
class Fate:
    """What pruning would do to a slot now, and why not more. `id` is the maker that was rolled back, or the deleter; `status` is what became
    of the deleter of a version that stays; `target` is where a redirect leads, or the slot of the later version with which this one goes."""

    page: int
    slot: int
    kind: FateKind
    id: int
    status: IdStatusKind
    target: int
    horizon: Horizon

    @property
    def goes(self) -> bool:
        """Whether pruning takes the version."""
        return FateKind.GOES_ROLLED_BACK <= self.kind <= FateKind.GOES_WITH

    def _why_it_stays(self) -> str:
        if self.status == IdStatusKind.ID_RUNNING:
            return "is in progress"
        if self.status == IdStatusKind.ID_ABORTED:
            return "was rolled back"
        return f"is not before the horizon. {self.horizon}"[:-1]

    def __str__(self) -> str:
        said = {
            FateKind.NO_SLOT: "is not there",
            FateKind.UNUSED_SLOT: "is unused",
            FateKind.DEAD_SLOT: "is dead, until a vacuum frees it",
            FateKind.REDIRECT_SLOT: f"leads to slot {self.target}",
            FateKind.GOES_ROLLED_BACK: f"goes: {self.id} made it, and was rolled back",
            FateKind.GOES_DELETED: f"goes: {self.id} deleted it, and is before the horizon, {self.horizon.id}",
            FateKind.GOES_WITH: f"goes with slot {self.target}, which comes later in its chain and is dead",
            FateKind.STAYS: "stays: nobody deleted it",
            FateKind.STAYS_DELETED: f"stays: {self.id} deleted it, and {self._why_it_stays()}",
        }[self.kind]
        return f"Slot {self.slot} of page {self.page} {said}."


@dataclass(frozen=True)
class Plan:
    """What pruning a page would do now; `Table.apply_plan(plan.page, plan.change, plan.actions)` does it, unless the page has changed."""

    page: int
    change: int
    actions: Tuple[Action, ...]

    def __str__(self) -> str:
        done = [
            f"slot {it.slot} {('becomes unused', 'becomes dead', f'leads to slot {it.target}')[it.kind]}" for it in self.actions
        ]
        return f"A pruning of page {self.page} would do {'nothing' if not done else 'this: ' + ', '.join(done)}."


@dataclass(frozen=True)
class VacuumState:
    """The vacuum that is running: its mode, the work of its next step, the next page, how many slots it has collected that are not freed yet,
    the horizon of its beginning, and the cutoff, before which it freezes."""

    is_aggressive: bool
    phase: Phase
    index: Optional[int]
    next_page: int
    collected: int
    horizon: int
    cutoff: int

    def __str__(self) -> str:
        work = (f"visits page {self.next_page}", f"goes through index {self.index}", "frees slots")[self.phase]
        return f"{'An aggressive' if self.is_aggressive else 'A normal'} vacuum {work} next, and has collected {self.collected} slots."


class Looks:
    """What a table is asked, by its calls."""

    def __init__(self, call: Callable[..., int]) -> None:
        self._call = call

    def _asks(self, name: str, *arguments: Any) -> bool:
        """Whether something was found; what is refused is raised."""
        return self._call(name, *arguments) == Status.FOUND

    def _places(self, key: int) -> Iterator[_c.Place]:
        """Where the entries of a key lead, in their order. (Each is asked for after the last, so a table that changes meanwhile is told as it
        is then.)"""
        place = _c.Place(0, 0)
        while self._asks("next_entry", key, ctypes.addressof(place)):
            yield place

    def _reason(self, told: _c.Reason) -> Optional[Reason]:
        kind = ReasonKind(told.reason)
        if kind == ReasonKind.NOBODY:
            return None
        session = self.status_of(told.id).session if kind == ReasonKind.RUNNING else None
        return Reason(told.id, kind, told.limit, told.parent, session)

    def _versions(self, session: int, place: _c.Place) -> Iterator[ShownVersion]:
        shown, number = _c.Shown(), 0
        while self._asks("explain", session, ctypes.addressof(place), number, ctypes.addressof(shown)):
            yield ShownVersion(shown.slot, shown.is_seen, self._reason(shown.maker), self._reason(shown.deleter))
            number += 1

    def explain(self, session: int, key: int) -> Explanation:
        # (asked for first, so that a session which is not open is refused also where the key has no entry)
        told = _c.Session()
        self._asks("session_of", session, ctypes.addressof(told))
        entries = [
            ShownEntry(it.page, it.slot, self.fate(it.page, it.slot), tuple(self._versions(session, it))) for it in self._places(key)
        ]
        return Explanation(session, key, tuple(entries))

    def _ids(self, name: str, session: int, count: int) -> Tuple[int, ...]:
        place = ctypes.c_uint32()
        ids: List[int] = []
        for number in range(count):
            self._asks(name, session, number, ctypes.addressof(place))
            ids.append(place.value)
        return tuple(ids)

    def _levels(self, session: int, savepoints: int, ids: Tuple[int, ...]) -> Tuple[Tuple[int, ...], ...]:
        """The own ids from each savepoint on to the next, and before them those from before the first."""
        place = ctypes.c_size_t()
        bounds = [0]
        for savepoint in reversed(range(savepoints)):
            self._asks("ids_at_savepoint", session, savepoint, ctypes.addressof(place))
            bounds.append(place.value)
        bounds.append(len(ids))
        return tuple(ids[first:last] for first, last in zip(bounds, bounds[1:]))

    def state_of(self, session: int) -> SessionState:
        told = _c.Session()
        self._asks("session_of", session, ctypes.addressof(told))
        snapshot, kept = None, told.snapshot
        if kept.is_kept:
            snapshot = Snapshot(kept.xmin, kept.xmax, kept.is_overflowed, self._ids("listed_id", session, kept.listed))
        ids = self._ids("own_id", session, told.ids)
        waits_for = told.waits_for if told.is_waiting else None
        levels = self._levels(session, told.savepoints, ids)
        kind = CursorKind(told.cursor)
        return SessionState(session, told.is_by_statement, told.has_failed, told.savepoints, ids, levels, snapshot, kind, waits_for)

    def horizon(self) -> Horizon:
        told = _c.Horizon()
        self._asks("horizon_of", ctypes.addressof(told))
        holder = Holder(told.holder)
        return Horizon(told.id, holder, None if holder == Holder.NEXT_ID else told.session)

    def status_of(self, id: int) -> IdStatus:
        told = _c.Id()
        self._asks("id_of", id, ctypes.addressof(told))
        return IdStatus(id, IdStatusKind(told.status), told.session if told.is_owned else None)

    def fate(self, page: int, slot: int) -> Fate:
        told = _c.Fate()
        self._asks("fate_of", page, slot, ctypes.addressof(told))
        return Fate(page, slot, FateKind(told.kind), told.id, IdStatusKind(told.status), told.slot, self.horizon())

    def plan(self, page: int) -> Plan:
        places, count, change = (_c.Action * _c.PAGE_ROWS)(), ctypes.c_size_t(), ctypes.c_uint64()
        self._asks("plan_of", page, ctypes.addressof(places), _c.PAGE_ROWS, ctypes.addressof(count), ctypes.addressof(change))
        actions = tuple(Action(it.slot, ActionKind(it.kind), it.target) for it in places[: count.value])
        return Plan(page, change.value, actions)

    def vacuum(self) -> VacuumState:
        told = _c.Vacuum()
        self._asks("vacuum_of", ctypes.addressof(told))
        phase = Phase(told.phase)
        index = told.index if phase == Phase.GOES_THROUGH_INDEX else None
        return VacuumState(told.mode == 2, phase, index, told.next, told.collected, told.horizon, told.cutoff)
