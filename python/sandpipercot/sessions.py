"""Sessions and their cursors."""
from __future__ import annotations

import contextlib
import ctypes
import itertools
import warnings
import weakref
from threading import get_ident
from types import TracebackType
from typing import TYPE_CHECKING, Any, Iterable, Iterator, List, Optional, Tuple, Type, TypeVar

from . import _c
from .looks import Explanation, Looks, SessionState, Snapshot
from .owned import Owned
from .rows import Places, Row, fits, fits_signed, whole
from .statuses import Failed, NoSuchIndex, NotOpen, NotThere, RolledBack, Status, refusal
from .tickets import Ticket

if TYPE_CHECKING:
    from .table import Table

Item = TypeVar("Item")

COLUMNS = 4
MOST_KEY = (1 << 64) - 1
# So many rows are written by one call, and so many are fetched at most, however large a batch is asked for.
AT_ONCE, MOST_AT_ONCE = 64, 1024
# (a number of an enum is compared ten times as slowly as a plain one)
FOUND, NO_ROW = int(Status.FOUND), int(Status.NO_ROW)
_get = _c.CALLS["get"]


class Session(Owned):
    """A transaction, from `Table.begin` to `commit` or `abort`. Each call may be refused as NotOpen, or as Failed. One that is let go
    without an end is aborted by the next call of its table."""

    _is_open = False

    def __init__(self, table: Table, number: int = 0) -> None:
        self._make()
        self._table, self._number = table, number
        # what the table knows it by, while its number is taken
        self._mine = object()
        # how many savepoints there are
        self._depth = 0
        # a cursor was let go and is still to be closed: what the collector runs makes no call of the library
        self._has_lost_cursor = False
        self._cursor: Optional[weakref.ref[BaseCursor[Any]]] = None

    def _ready(self) -> None:
        """Looks whether a call may be made, and does what was left to the next one."""
        if not self._is_open:
            raise NotOpen()
        table = self._table
        if table._lost or table._thread != get_ident():
            table._ready()
        if self._has_lost_cursor:
            self._has_lost_cursor = False
            table._call("close_cursor", self._number)

    def _call(self, name: str, *arguments: Any) -> int:
        self._ready()
        return self._table._call(name, self._number, *arguments)

    def _end(self, name: str) -> int:
        try:
            status = self._call(name)
        except NotOpen:
            # (it had ended, and a signal handler raised before that was noted)
            self._has_ended()
            raise
        self._has_ended()
        return status

    def _has_ended(self) -> None:
        self._is_open = False
        self._table._frees(self._number, self._mine)
        cursor = self._cursor and self._cursor()
        if cursor:
            cursor._drop_rows()

    @property
    def number(self) -> int:
        """The session's number, by which `Busy` names it."""
        return self._number

    @property
    def is_open(self) -> bool:
        return self._is_open and self._table.is_open

    def get(self, key: int) -> Optional[Row]:
        """The row of the key, or None."""
        self._ready()
        if type(key) is not int or not 0 <= key <= MOST_KEY:
            key = fits(key, 64, "key")
        # (whatever comes in between, as a signal handler, takes places of its own)
        free = self._table._free
        try:
            place = free.pop()
        except IndexError:
            place = Places(1)
        status = _get(self._table._address, self._number, key, place.address)
        row = place.row() if status == FOUND else None
        free.append(place)
        if status > NO_ROW:
            raise refusal(status, key)
        return row

    def get_many(self, keys: Iterable[int]) -> List[Optional[Row]]:
        """The rows of the keys, or None where a key has none, in the order of the keys."""
        return [self.get(key) for key in keys]

    def __contains__(self, key: int) -> bool:
        return self.get(key) is not None

    def __len__(self) -> int:
        """How many rows the session reads. They are counted by a cursor over keys, so that takes as long as a scan. Refusal: CursorOpen."""
        with self.keys(batch=MOST_AT_ONCE) as keys:
            return sum(1 for _ in keys)

    def __bool__(self) -> bool:
        # (without this a session that reads no row would count as none)
        return True

    def __repr__(self) -> str:
        return f"<sandpipercot.Session {self._number}, {'open' if self.is_open else 'ended'}>"

    def _write(self, name: str, row: Row) -> None:
        self._ready()
        free = self._table._free
        try:
            place = free.pop()
        except IndexError:
            place = Places(1)
        place.put(row)
        status = _c.CALLS[name](self._table._address, self._number, place.address)
        free.append(place)
        if status:
            raise refusal(status, row[0])

    def _write_many(self, name: str, rows: Iterable[Row]) -> int:
        """Writes rows, some at a time, and answers how many there were."""
        # (whoever makes the rows may make other calls meanwhile, so the places are this call's own)
        places, done, coming, count = Places(AT_ONCE), ctypes.c_size_t(), iter(rows), 0
        while some := list(itertools.islice(coming, AT_ONCE)):
            for number, row in enumerate(some):
                places.put(row, number)
            self._ready()
            call = _c.CALLS[name]
            status = call(self._table._address, self._number, places.address, len(some), ctypes.addressof(done))
            if status:
                raise refusal(status, some[done.value][0])
            count += len(some)
        return count

    def insert(self, row: Row) -> None:
        """Writes a row of a key that has none. Refusals: CursorOpen, TooLarge, AlreadyThere, Conflict, Busy, Deadlock, NeedsFreeze,
        NoRoom, NoMemory."""
        self._write("insert", row)

    def insert_many(self, rows: Iterable[Row]) -> int:
        """Inserts rows in their order, taking 64 at a time, and answers how many there were. A refusal names the row's key; the rows
        before it stay inserted. Refusals: as of `insert`."""
        return self._write_many("insert_many", rows)

    def update(self, row: Row) -> None:
        """Writes another row of a key that has one. Refusals: as of `insert`, with NotThere for AlreadyThere."""
        self._write("update", row)

    def update_many(self, rows: Iterable[Row]) -> int:
        """Updates rows in their order, taking 64 at a time, and answers how many there were. A refusal names the row's key; the rows
        before it stay updated. Refusals: as of `update`."""
        return self._write_many("update_many", rows)

    def put(self, row: Row) -> None:
        """Writes a row, whether its key has one or not: updates it, or else inserts it. Refusals: as of `insert`, without AlreadyThere."""
        try:
            self.update(row)
        except NotThere:
            self.insert(row)

    def delete(self, key: int) -> None:
        """Takes the row of the key away. Refusals: CursorOpen, NotThere, Conflict, Busy, Deadlock, NeedsFreeze, NoMemory."""
        self._ready()
        status = _c.CALLS["delete"](self._table._address, self._number, fits(key, 64, "key"))
        if status:
            raise refusal(status, key)

    def delete_many(self, keys: Iterable[int]) -> int:
        """Takes the rows of the keys away, in their order, and answers how many there were. A refusal names its key; the rows before it
        stay deleted. Refusals: as of `delete`."""
        count = 0
        for key in keys:
            self.delete(key)
            count += 1
        return count

    def savepoint(self) -> Savepoint:
        """Sets a savepoint above those that there are, and answers it for a `with` block. Refusals: CursorOpen, TooDeep after 32 of them,
        NoMemory."""
        self._call("savepoint")
        self._depth += 1
        return Savepoint(self, self._depth)

    def rollback_to(self) -> None:
        """Takes back what was written since the newest savepoint, which stays; a failed transaction is usable again. Refusals:
        CursorOpen, NoSavepoint."""
        self._call("rollback_to")

    def release(self) -> None:
        """Forgets the newest savepoint, and keeps what was written since. Refusals: CursorOpen, NoSavepoint."""
        self._call("release")
        self._depth -= 1

    def commit(self) -> None:
        """Makes what was written part of the table, and ends the session. Raises RolledBack where the transaction had failed."""
        if self._end("commit") == Status.ROLLED_BACK:
            raise RolledBack(RolledBack.__doc__)

    def abort(self) -> None:
        """Drops what was written, and ends the session."""
        self._end("abort")

    def rows(self, batch: int = 64) -> Cursor:
        """A cursor over all rows that the session reads, page by page, at most a batch of 1 to 65535 at a time. Refusal:
        CursorOpen."""
        return Cursor(self, batch, "open_heap")

    def by_key(self, low: int = 0, high: int = (1 << 64) - 1, batch: int = 64) -> Cursor:
        """The same over the rows with keys from low to high, both included, in ascending order; there is no scan backwards. Refusals:
        CursorOpen, BadBounds."""
        return Cursor(self, batch, "open_by_key", fits(low, 64, "low"), fits(high, 64, "high"))

    def by_column(self, column: int, low: int = -(1 << 63), high: int = (1 << 63) - 1, batch: int = 64) -> Cursor:
        """The same by the values of a column, 0 to 3, that has an index, and by key where values are equal. Refusals: CursorOpen,
        NoSuchIndex, IndexTooNew, BadBounds."""
        if not 0 <= whole(column, "column") < COLUMNS:
            raise NoSuchIndex(f"there is no column {column}: they are 0 to {COLUMNS - 1}")
        return Cursor(self, batch, "open_index", column + 1, fits_signed(low, "low"), fits_signed(high, "high"))

    def keys(self, low: int = 0, high: int = (1 << 64) - 1, batch: int = 64) -> KeyCursor:
        """A cursor over the keys alone that `by_key` would hand out rows of, in ascending order: no page is read that is noted as
        all-visible. Refusals: CursorOpen, BadBounds."""
        return KeyCursor(self, batch, "open_keys", fits(low, 64, "low"), fits(high, 64, "high"))

    def explain(self, key: int) -> Explanation:
        """Why a statement of the session, begun now, reads the row of the key, or none: the key's entries, and each version of the chains to
        which they lead, with who made it and who took it away. A session that has failed is told too."""
        return self._looks().explain(self._number, fits(key, 64, "key"))

    @property
    def snapshot(self) -> Optional[Snapshot]:
        """The snapshot that it keeps: that of its beginning; by `read_committed` that of its open cursor, or None."""
        return self.state().snapshot

    @property
    def ids(self) -> Tuple[int, ...]:
        """Its own ids, in the order of giving, without those that were rolled back."""
        return self.state().ids

    def state(self) -> SessionState:
        """What the session is like now."""
        return self._looks().state_of(self._number)

    def _looks(self) -> Looks:
        self._ready()
        return Looks(self._table._call)

    def take_page(self, page: int) -> Ticket:
        """A page, counted from 0, as it is now, with what the session sees of it now: its rows can be read at any time. Refusals:
        NoSuchPage, NoMemory."""
        # (made first, so that it lets go of the page where a signal handler raises)
        ticket = Ticket(_c.Ticket(), fits(page, 32, "page"))
        self._call("take_page", ticket._page, ticket._address)
        return ticket

    def __enter__(self) -> Session:
        return self

    def __exit__(
        self, kind: Optional[Type[BaseException]], fault: Optional[BaseException], trace: Optional[TracebackType]
    ) -> None:
        if not self._is_open:
            return
        if kind is None:
            # (raises NoEngine where the table was closed before: nothing was committed)
            self.commit()
        elif self._table.is_open:
            with contextlib.suppress(NotOpen):
                self.abort()

    def __del__(self) -> None:
        if self._is_open and self._table.is_open:
            self._table._lost.append((self._number, self._mine))
            warnings.warn(f"session {self._number} was let go while it was open", ResourceWarning, source=self)
        elif self._is_made:
            self._table._frees(self._number, self._mine)


class Savepoint:
    """A savepoint as a `with` block: at its end the savepoint is released, and what was written stays. An exception that leaves the block
    takes back what was written in it, and goes on; after that the session is usable also where it had failed. A cursor that is open
    then is closed."""

    def __init__(self, session: Session, depth: int) -> None:
        self._session, self._depth = session, depth

    def _is_there(self) -> bool:
        return self._session.is_open and self._session._depth >= self._depth

    def _release(self) -> None:
        """Releases it, and those above it."""
        while self._is_there():
            self._session.release()

    def _take_back(self) -> None:
        """Returns to it, and releases it."""
        cursor = self._session._cursor and self._session._cursor()
        if cursor:
            cursor.close()
        while self._is_there():
            self._session.rollback_to()
            self._session.release()

    def __enter__(self) -> Savepoint:
        return self

    def __exit__(
        self, kind: Optional[Type[BaseException]], fault: Optional[BaseException], trace: Optional[TracebackType]
    ) -> None:
        if kind is not None:
            self._take_back()
            return
        try:
            self._release()
        except Failed:
            self._take_back()
            raise


class BaseCursor(Owned, Iterator[Item]):
    """What cursors over rows and over keys have in common."""

    _is_open = False

    def __init__(self, session: Session, batch: int, opening: str, *arguments: Any) -> None:
        self._make()
        if fits(batch, 16, "batch") == 0:
            raise ValueError("a batch is of one row at least")
        self._session, self._opening = session, opening
        self._batch = min(batch, MOST_AT_ONCE)
        self._fetched: List[Item] = []
        self._rows = iter(self._fetched)
        self._is_fetching = False
        session._call(opening, *arguments)
        session._cursor = weakref.ref(self)
        self._is_open = True

    def _fetch(self) -> bool:
        """Asks for the next rows, and answers whether there are any. After the last the cursor is closed."""
        if not self._is_open:
            return False
        if self._is_fetching:
            # (rows of one of the two would be lost)
            raise RuntimeError("the cursor is asked for rows while it fetches some")
        self._is_fetching = True
        try:
            return self._fetch_alone()
        finally:
            self._is_fetching = False

    def _fetch_alone(self) -> bool:
        between = list(self._rows)
        if between:
            # (a signal handler has fetched them, and left them)
            self._fetched, self._rows = between, iter(between)
            return True
        table, count = self._session._table, ctypes.c_size_t()
        places = table._places_for(self._batch)
        status = self._session._call("next", places.address, self._batch, ctypes.addressof(count))
        if status != Status.END:
            self._fetched = self._read(places, count.value)
            self._rows = iter(self._fetched)
        table._free_many.append(places)
        if status == Status.END:
            self.close()
        return status != Status.END

    def _read(self, places: Places, count: int) -> List[Item]:
        """What was written to the first places."""
        raise NotImplementedError

    def _drop_rows(self) -> None:
        """Drops the rows that were fetched and not handed out, also those of a loop that goes on."""
        self._fetched.clear()

    def __iter__(self) -> Iterator[Item]:
        # (a generator hands out a row for a third of what `__next__` takes)
        while True:
            yield from self._rows
            if not self._fetch():
                return

    def __next__(self) -> Item:
        while True:
            for row in self._rows:
                return row
            if not self._fetch():
                raise StopIteration

    def close(self) -> None:
        """Ends the cursor; rows that were fetched and not handed out are dropped. A cursor that is closed stays so."""
        was_open, self._is_open = self._is_open, False
        self._drop_rows()
        if was_open and self._session.is_open:
            self._session._call("close_cursor")

    def __repr__(self) -> str:
        state = "open" if self._is_open and self._session.is_open else "closed"
        return f"<sandpipercot.{type(self).__name__} of session {self._session._number}, {state}>"

    def __enter__(self) -> BaseCursor[Item]:
        return self

    def __exit__(self, *_: object) -> None:
        self.close()

    def __del__(self) -> None:
        if self._is_open:
            self._session._has_lost_cursor = True


class Cursor(BaseCursor[Row]):
    """An iterator over rows of a session, as they were when it was opened. It is closed at its end, by `close`, at the end of
    its `with` block, or when it is let go; it ends with its session, as NotOpen. While it is open the session reads, and writes
    nothing. Rows that it has handed out stay."""

    def _read(self, places: Places, count: int) -> List[Row]:
        return places.rows(count)


class KeyCursor(BaseCursor[int]):
    """The same over keys alone."""

    def _read(self, places: Places, count: int) -> List[int]:
        return places.keys(count)
