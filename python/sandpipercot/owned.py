"""What a table, a session, a cursor and a ticket have in common."""
from __future__ import annotations

from typing import NoReturn


class Owned:
    """What holds something of the library's: it is made once, and neither copied nor pickled."""

    _is_made = False

    def _make(self) -> None:
        """Looks that it is not made twice: what it held would be lost, or be held by two."""
        if self._is_made:
            raise RuntimeError(f"this {type(self).__name__} is made already")
        self._is_made = True

    def __reduce__(self) -> NoReturn:
        # (what copies asks for this too)
        kind = type(self)
        raise TypeError(f"cannot pickle '{kind.__module__}.{kind.__name__}' object")
