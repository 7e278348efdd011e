"""Tables, and what they tell of themselves."""
from __future__ import annotations

import contextlib
import ctypes
import enum
import threading
from typing import Any, Dict, Iterable, Iterator, List, NamedTuple, Optional, Sequence, Tuple

from . import _c
from .looks import Action, Fate, Horizon, IdStatus, Looks, Plan, VacuumState
from .owned import Owned
from .pictures import Picture, draw
from .rows import Places, fits
from .sessions import Session
from .statuses import AlreadyOpen, NoEngine, NoSuchSession, NoVacuum, Status, VacuumRunning, refusal


# (a number of an enum is compared ten times as slowly as a plain one)
WORKED = int(Status.WORKED)


class Kind(enum.IntEnum):
    """What is in a slot of a page."""

    UNUSED = 0
    NORMAL = 1
    REDIRECT = 2
    DEAD = 3


class PieceKind(enum.IntEnum):
    """A part of a vacuum's work."""

    NO_PIECE = 0
    VISITED_PAGE = 1
    REMOVED_ENTRIES = 2
    FREED_SLOTS = 3


class Vacuum(enum.IntEnum):
    """Whether a vacuum runs, and of which mode."""

    NONE = 0
    NORMAL = 1
    AGGRESSIVE = 2


class Slot(NamedTuple):
    """A slot of a page: of a redirect where it leads, of a version who made it, who took it away (or 0), and its key."""

    kind: Kind
    target: int
    xmin: int
    xmax: int
    key: int


class Page(NamedTuple):
    """What a page tells of itself: how often a slot was changed otherwise than in hints, whether the visibility map says that it is
    all-visible, and all-frozen too, and how many slots it has."""

    change: int
    all_visible: bool
    all_frozen: bool
    slots: int


class Piece(NamedTuple):
    """What a step of a vacuum did, to the page or index of this number; where it has ended, the oldest id that is remembered."""

    kind: PieceKind
    number: int
    oldest: int


class State(NamedTuple):
    """What a table is like: the next id, the oldest one that is remembered, how many more can be given before NeedsFreeze, the pages in
    use, the numbers of the open sessions, how many entries each index has (index 0 is by key, index c + 1 by column c; None where
    there is no such index), and the vacuum that runs."""

    next_id: int
    oldest_id: int
    ids_left: int
    pages: int
    open_sessions: Tuple[int, ...]
    entries: Tuple[Optional[int], ...]
    vacuum: Vacuum


class Table(Owned):
    """A table of these settings, whose ranges sandpipercot.h gives; column `c` has an index where `indexed[c]` is true.

    It is closed at the end of its `with` block, by `close`, or when it is let go; sessions that are open then are aborted.
    """

    _handle: Optional[_c.Handle] = None

    def __init__(
        self,
        *,
        max_pages: int = 65536,
        stop_age: int = 2144483648,
        freeze_min_age: int = 0,
        first_xid: int = 3,
        dead_limit: int = 4096,
        indexed: Sequence[bool] = (False, False, False, False),
    ) -> None:
        self._make()
        named = {
            "max_pages": max_pages,
            "stop_age": stop_age,
            "freeze_min_age": freeze_min_age,
            "first_xid": first_xid,
            "dead_limit": dead_limit,
        }
        numbers = [fits(value, 32, name) for name, value in named.items()]
        if len(indexed) != 4:
            raise ValueError("indexed has one flag for each of the four columns")
        settings = _c.Settings(*numbers, (ctypes.c_bool * 4)(*indexed))
        handle = _c.Handle()
        self._address, self._thread = ctypes.addressof(handle), threading.get_ident()
        # places that no call has just now, for one row, and for a cursor's
        self._free, self._free_many = [Places(1)], [Places(1)]
        # the sessions that are open, each with what tells whose its number is
        self._sessions: Dict[int, object] = {}
        # sessions that were let go and are still to be aborted: what the collector runs makes no call of the library
        self._lost: List[Tuple[int, object]] = []
        self._is_aborting = False
        # (kept first, so that the table is closed where a signal handler raises)
        self._handle = handle
        status = _c.CALLS["open"](ctypes.addressof(settings), self._address)
        if status != Status.DONE:
            raise refusal(status)

    def _ready(self) -> None:
        """Looks whether a call may be made here, and aborts the sessions that were let go."""
        if threading.get_ident() != self._thread:
            raise RuntimeError("a table stays on the thread that opened it")
        if not self._lost or self._is_aborting:
            return
        self._is_aborting = True
        try:
            for number, mine in [*self._lost]:
                # (a number that is taken anew is another session's)
                if self._sessions.get(number) is mine:
                    _c.CALLS["abort"](self._address, number)
                    self._frees(number, mine)
                self._lost.remove((number, mine))
        finally:
            self._is_aborting = False

    def _call(self, name: str, *arguments: Any) -> int:
        self._ready()
        status = _c.CALLS[name](self._address, *arguments)
        if status >= Status.NOT_OPEN:
            raise refusal(status)
        return status

    def _places_for(self, count: int) -> Places:
        """So many places or more, for one call. Whatever comes before they are given back, as a signal handler, takes others."""
        try:
            places = self._free_many.pop()
        except IndexError:
            places = Places(count)
        return places if places.count >= count else Places(count)

    def _takes(self, number: int, session: Session) -> bool:
        """Takes a number for a session, where no open one has it."""
        session._number = number
        return self._sessions.setdefault(number, session._mine) is session._mine

    def _frees(self, number: int, mine: object) -> None:
        """Frees a session's number, where it has it still."""
        if self._sessions.get(number) is mine:
            self._sessions.pop(number, None)

    @property
    def is_open(self) -> bool:
        return self._handle is not None and bool(self._handle.is_open)

    def begin(self, number: Optional[int] = None, *, read_committed: bool = False) -> Session:
        """Opens a session of this number, from 0 to 63, or of the lowest that is not open. It reads what is committed now; with
        `read_committed` each of its calls reads what is committed by then, and no write of it meets a Conflict. Refusals:
        NoSuchSession, also where all 64 are open, AlreadyOpen, and NoMemory, not by `read_committed`."""
        self._ready()
        session = Session(self)
        if number is not None:
            is_taken = self._takes(fits(number, 8, "number"), session)
        else:
            is_taken = any(self._takes(it, session) for it in range(_c.SESSIONS))
        if not is_taken:
            raise AlreadyOpen() if number is not None else NoSuchSession("all 64 sessions are open")
        # (open from here on, so that it is aborted where a signal handler raises)
        session._is_open = True
        status = _c.CALLS["begin_read_committed" if read_committed else "begin"](self._address, session._number)
        if status:
            session._has_ended()
            raise refusal(status)
        return session

    def keep_places(self, wanted: bool) -> None:
        """Forgets where keys were put, and notes it from now on, or never. A new table notes it. It makes gets faster and takes 8 to
        16 bytes of memory a row, and no answer changes by it."""
        self._call("keep_places", bool(wanted))

    def create_index(self, column: int) -> None:
        """Makes the index of a column, from 0 to 3, which is index column + 1; nothing is done where it is there. A session that was
        open by snapshot opens no cursor by it. Refusals: NoSuchIndex, VacuumRunning, IndexBusy, NoMemory."""
        self._call("create_index", fits(column, 8, "column"))

    def prune(self, page: int) -> None:
        """Takes from a page, counted from 0, the versions that no session can see any more. Refusal: NoSuchPage."""
        self._call("prune", fits(page, 32, "page"))

    def apply_plan(self, page: int, change: int, actions: Iterable[Action] = ()) -> None:
        """Does to the slots of a page what a plan names, in ascending order of slots. It was made when the page's change number was
        `change` (`page` tells it), and may take less than `prune` does. Refusals: NoMemory, NoSuchPage, Stale."""
        named = [_c.Action(*(fits(it, 16, name) for it, name in zip(action, Action._fields))) for action in actions]
        places = (_c.Action * max(1, len(named)))(*named)
        self._call("apply_plan", fits(page, 32, "page"), fits(change, 64, "change"), ctypes.addressof(places), len(named))

    def vacuum_begin(self, aggressive: bool = False) -> None:
        """Begins a vacuum, which runs beside the sessions; at the end of an aggressive one old ids are forgotten. Refusal:
        VacuumRunning."""
        self._call("vacuum_begin", bool(aggressive))

    def vacuum_step(self) -> Piece:
        """Does the next step of the vacuum; the last one answers NO_PIECE. Refusal: NoVacuum."""
        piece = _c.Piece()
        self._call("vacuum_step", ctypes.addressof(piece))
        return Piece(PieceKind(piece.kind), piece.number, piece.oldest)

    def vacuum_cancel(self) -> None:
        """Drops the vacuum; what it did stays. Refusal: NoVacuum."""
        self._call("vacuum_cancel")

    def vacuum(self, aggressive: bool = False) -> int:
        """A whole vacuum, and the oldest id that is remembered after it. One that an exception leaves, as KeyboardInterrupt, is cancelled.
        Refusal: VacuumRunning (`state` says of which mode)."""
        if self.state().vacuum != Vacuum.NONE:
            raise VacuumRunning()
        try:
            self.vacuum_begin(aggressive)
            piece, step = _c.Piece(), _c.CALLS["vacuum_step"]
            address, status = ctypes.addressof(piece), WORKED
            # (a step costs the library less than a call of `vacuum_step`)
            while status == WORKED:
                status = step(self._address, address)
            if status >= Status.NOT_OPEN:
                raise refusal(status)
            return int(piece.oldest)
        except BaseException:
            # (none runs where it came before the beginning, or after the end)
            with contextlib.suppress(NoVacuum, NoEngine):
                self.vacuum_cancel()
            raise

    def state(self) -> State:
        """What the table is like now."""
        state = _c.State()
        self._call("state_of", ctypes.addressof(state))
        numbers = tuple(it for it in range(_c.SESSIONS) if state.open_sessions >> it & 1)
        entries = tuple(count if there else None for count, there in zip(state.entries, state.has_index))
        return State(state.next_id, state.oldest_id, state.ids_left, state.pages, numbers, entries, Vacuum(state.vacuum))

    def _finds(self, name: str, *arguments: Any) -> bool:
        """Whether there is what a call looks for. Where there is no table the library says that there is none."""
        found = self._call(name, *arguments) == Status.FOUND
        if not found and not self.is_open:
            raise NoEngine()
        return found

    def page(self, page: int) -> Optional[Page]:
        """What a page, counted from 0, tells of itself, or None where it is not in use."""
        head = _c.Page()
        if not self._finds("page_at", fits(page, 32, "page"), ctypes.addressof(head)):
            return None
        return Page(head.change, head.bits >= 1, head.bits == 2, head.slots)

    def slots(self, page: int) -> Iterator[Slot]:
        """The slots of a page, counted from 0: slot 1, 2 and so on. Of a page that is not in use there are none."""
        # (kept by its name while the library writes to it)
        head = _c.Page()
        self._finds("page_at", fits(page, 32, "page"), ctypes.addressof(head))
        return self._slots(page)

    def _slots(self, page: int) -> Iterator[Slot]:
        slot, number = _c.Slot(), 1
        while self._finds("slot_at", page, number, ctypes.addressof(slot)):
            yield Slot(Kind(slot.kind), slot.target, slot.xmin, slot.xmax, slot.key)
            number += 1

    def page_bytes(self, page: int) -> Optional[bytes]:
        """The 8192 bytes of a page, counted from 0, in PostgreSQL's layout (docs/format.md), or None where it is not in use."""
        place = (ctypes.c_uint8 * _c.PAGE_BYTES)()
        found = self._finds("page_bytes", fits(page, 32, "page"), ctypes.addressof(place), _c.PAGE_BYTES)
        return bytes(place) if found else None

    def horizon(self) -> Horizon:
        """The horizon, and the lowest session that holds it back: what an id before it deleted may go."""
        return Looks(self._call).horizon()

    def fate(self, page: int, slot: int) -> Fate:
        """What pruning would do now to a slot, counted from 1, of a page, counted from 0, and why not more. Refusal: NoSuchPage."""
        return Looks(self._call).fate(fits(page, 32, "page"), fits(slot, 16, "slot"))

    def plan(self, page: int) -> Plan:
        """What `prune` of a page would do now: a plan for `apply_plan`. Refusal: NoSuchPage."""
        return Looks(self._call).plan(fits(page, 32, "page"))

    def status_of(self, id: int) -> IdStatus:
        """What became of an id, such as a slot names, and the open session that has it, if one has."""
        return Looks(self._call).status_of(fits(id, 32, "id"))

    def vacuum_state(self) -> VacuumState:
        """The vacuum that is running. Refusal: NoVacuum."""
        return Looks(self._call).vacuum()

    def draw(self, pages: Optional[Iterable[int]] = None) -> Picture:
        """A picture of the table as it is now: of the pages of these numbers, counted from 0, or of all. A notebook shows it, and its `svg` is
        the text. Refusals: TooManyPages, where they are more than 64, NoSuchPage, NoMemory."""
        return draw(self._call, pages)

    def _repr_svg_(self) -> str:
        return self.draw().svg

    def close(self) -> None:
        """Aborts what is open, and gives the memory back. A table that is closed stays so."""
        if self.is_open:
            self._call("close")

    def __repr__(self) -> str:
        if not self.is_open:
            return "<sandpipercot.Table, closed>"
        numbers = ", ".join(map(str, sorted(self._sessions)))
        return f"<sandpipercot.Table, open, sessions: {numbers or 'none'}>"

    def __enter__(self) -> Table:
        return self

    def __exit__(self, *_: object) -> None:
        self.close()

    def __del__(self) -> None:
        # (what is let go on another thread cannot be closed there)
        if self.is_open and threading.get_ident() == self._thread:
            self.close()
