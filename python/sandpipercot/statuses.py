"""What the library answers, and what is raised where it refuses a call."""
from __future__ import annotations

import enum
from typing import ClassVar, Dict, Optional, Type


class Status(enum.IntEnum):
    """What a call of the library answers."""

    DONE = 0
    FOUND = 1
    NO_ROW = 2
    COMMITTED = 3
    ROLLED_BACK = 4
    ROWS = 5
    END = 6
    WORKED = 7
    ENDED = 8
    NOT_OPEN = 16
    ALREADY_OPEN = 17
    FAILED = 18
    ALREADY_THERE = 19
    NOT_THERE = 20
    CONFLICT = 21
    CURSOR_OPEN = 22
    NO_CURSOR = 23
    TOO_DEEP = 24
    NO_SAVEPOINT = 25
    TOO_LARGE = 26
    NO_ROOM = 27
    NEEDS_FREEZE = 28
    BAD_BOUNDS = 29
    NO_MEMORY = 30
    NO_SUCH_PAGE = 31
    NO_SUCH_INDEX = 32
    NO_SUCH_SESSION = 33
    VACUUM_RUNNING = 34
    NO_VACUUM = 35
    INDEX_TOO_NEW = 36
    INDEX_BUSY = 37
    DEADLOCK = 38
    STALE = 39
    NO_ENGINE = 48
    HAS_ENGINE = 49
    NO_PLACE = 50
    NO_TICKET = 51
    HAS_TICKET = 52
    TOO_MANY_PAGES = 53
    BAD_MAX_PAGES = 64
    BAD_STOP_AGE = 65
    BAD_FREEZE_MIN_AGE = 66
    BAD_FIRST_XID = 67
    BAD_DEAD_LIMIT = 68
    BUSY = 256  # plus the session that has written the key


class RolledBack(Exception):
    """The transaction had failed, so its commit rolled it back."""


class Refused(Exception):
    """The table refused a call, and is as it was. `key` is that of the row or the call, where it had one."""

    status: ClassVar[Status]
    key: Optional[int]

    def __init__(self, text: str = "", key: Optional[int] = None) -> None:
        text = text or str(self.__doc__)
        super().__init__(text if key is None else f"key {key}: {text}")
        self.key = key


class NotOpen(Refused):
    """the session is not open"""

    status = Status.NOT_OPEN


class AlreadyOpen(Refused):
    """the session is open already"""

    status = Status.ALREADY_OPEN


class Failed(Refused):
    """the transaction has failed: roll back to a savepoint, or abort it"""

    status = Status.FAILED


class AlreadyThere(Refused):
    """the session reads a row of the key"""

    status = Status.ALREADY_THERE


class NotThere(Refused):
    """the session reads no row of the key"""

    status = Status.NOT_THERE


class Conflict(Refused):
    """a transaction that committed since the session's snapshot was taken wrote the key; the session's own has failed"""

    status = Status.CONFLICT


class CursorOpen(Refused):
    """the session has a cursor open"""

    status = Status.CURSOR_OPEN


class NoCursor(Refused):
    """the session has no cursor"""

    status = Status.NO_CURSOR


class TooDeep(Refused):
    """the session has 32 savepoints"""

    status = Status.TOO_DEEP


class NoSavepoint(Refused):
    """the session has no savepoint"""

    status = Status.NO_SAVEPOINT


class TooLarge(Refused):
    """the body has more than 1024 bytes"""

    status = Status.TOO_LARGE


class NoRoom(Refused):
    """no page has room for the row, and there may be no further page"""

    status = Status.NO_ROOM


class NeedsFreeze(Refused):
    """no id can be given until an aggressive vacuum has ended"""

    status = Status.NEEDS_FREEZE


class BadBounds(Refused):
    """the lower bound is over the upper"""

    status = Status.BAD_BOUNDS


class NoMemory(Refused, MemoryError):
    """memory was refused"""

    status = Status.NO_MEMORY


class NoSuchPage(Refused):
    """the table uses no such page"""

    status = Status.NO_SUCH_PAGE


class NoSuchIndex(Refused):
    """the table has no such index"""

    status = Status.NO_SUCH_INDEX


class NoSuchSession(Refused):
    """the session's number is over 63"""

    status = Status.NO_SUCH_SESSION


class VacuumRunning(Refused):
    """a vacuum is running already"""

    status = Status.VACUUM_RUNNING


class NoVacuum(Refused):
    """no vacuum is running"""

    status = Status.NO_VACUUM


class IndexTooNew(Refused):
    """the index was made while the session was open by snapshot"""

    status = Status.INDEX_TOO_NEW


class IndexBusy(Refused):
    """an index can't be made while an open session has written"""

    status = Status.INDEX_BUSY


class Deadlock(Refused):
    """a wait for the session that has written the key would close a ring"""

    status = Status.DEADLOCK


class Stale(Refused):
    """the plan does not check"""

    status = Status.STALE


class NoEngine(Refused):
    """the table is closed"""

    status = Status.NO_ENGINE


class HasEngine(Refused):
    """the table is open already"""

    status = Status.HAS_ENGINE


class NoPlace(Refused):
    """there is no place for a row, for a page, for all rows, or for a picture"""

    status = Status.NO_PLACE


class NoTicket(Refused):
    """the ticket has no page"""

    status = Status.NO_TICKET


class HasTicket(Refused):
    """the ticket has a page already"""

    status = Status.HAS_TICKET


class TooManyPages(Refused):
    """a picture has at most 64 pages"""

    status = Status.TOO_MANY_PAGES


class BadMaxPages(Refused):
    """max_pages is not from 1 to 65536"""

    status = Status.BAD_MAX_PAGES


class BadStopAge(Refused):
    """stop_age is not from 1 to 2144483648"""

    status = Status.BAD_STOP_AGE


class BadFreezeMinAge(Refused):
    """freeze_min_age is over 1000000000"""

    status = Status.BAD_FREEZE_MIN_AGE


class BadFirstXid(Refused):
    """first_xid is below 3"""

    status = Status.BAD_FIRST_XID


class BadDeadLimit(Refused):
    """dead_limit is not from 1 to 4096"""

    status = Status.BAD_DEAD_LIMIT


class Busy(Refused):
    """another open session has written the key"""

    status = Status.BUSY

    def __init__(self, session: int, key: Optional[int] = None) -> None:
        super().__init__(f"open session {session} has written the key", key)
        self.session = session


_REFUSALS: Dict[int, Type[Refused]] = {kind.status: kind for kind in Refused.__subclasses__()}


def refusal(status: int, key: Optional[int] = None) -> Refused:
    """What is raised for a status of 16 or more."""
    if status >= Status.BUSY:
        return Busy(status - Status.BUSY, key)
    return _REFUSALS[status](key=key)
