"""Pages that were taken, whose rows are read at any time."""
from __future__ import annotations

import ctypes
from typing import List, Optional

from . import _c
from .owned import Owned
from .rows import Places, Row
from .statuses import Status, refusal


class Ticket(Owned):
    """A page as it was when `Session.take_page` took it, with what the session saw of it then. It is no part of its table: it may be read
    on any thread, one call at a time, whatever is done to the table meanwhile. Its memory is given back by `close`, at the end of its
    `with` block, or when it is let go."""

    _place: Optional[_c.Ticket] = None

    def __init__(self, place: _c.Ticket, page: int) -> None:
        self._make()
        self._page, self._place = page, place
        self._address = ctypes.addressof(place)

    @property
    def is_open(self) -> bool:
        return self._place is not None and bool(self._place.is_taken)

    def rows(self) -> List[Row]:
        """The rows that the session saw, in the order of their slots. Refusals: NoTicket once it is closed, and NoMemory."""
        places, count = Places(_c.PAGE_ROWS), ctypes.c_size_t()
        status = _c.CALLS["ticket_rows"](self._address, places.address, places.count, ctypes.addressof(count))
        if status >= Status.NOT_OPEN:
            raise refusal(status)
        return places.rows(count.value)

    def close(self) -> None:
        """Gives the memory back. A ticket that is closed stays so."""
        if self.is_open:
            _c.CALLS["close_ticket"](self._address)

    def __repr__(self) -> str:
        return f"<sandpipercot.Ticket of page {self._page}, {'open' if self.is_open else 'closed'}>"

    def __enter__(self) -> Ticket:
        return self

    def __exit__(self, *_: object) -> None:
        self.close()

    def __del__(self) -> None:
        self.close()
