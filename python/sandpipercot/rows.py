"""Rows, and the places in which the library reads and writes them."""
from __future__ import annotations

import ctypes
import functools
import operator
import reprlib
import struct
from typing import Any, Callable, List, NamedTuple, Tuple, cast

from . import _c


class Row(NamedTuple):
    """A row: a key from 0 to 2**64 - 1, four columns from -2**63 to 2**63 - 1, and a body of at most 1024 bytes."""

    key: int
    cols: Tuple[int, ...] = (0, 0, 0, 0)
    body: bytes = b""


SIZE = ctypes.sizeof(_c.Row)
BODY_AT = _c.Row.body.offset
# key, columns, and how many bytes of the body count; the same with the body, to the end of the place; and the key alone
HEAD = struct.Struct("=Q4qH")
PLACE = struct.Struct(f"=Q4qH{_c.BODY}s{SIZE - BODY_AT - _c.BODY}x")
KEY = struct.Struct(f"=Q{SIZE - 8}x")
assert HEAD.size == BODY_AT and PLACE.size == KEY.size == SIZE

# the lengths that a body may have
MOST = range(_c.BODY + 1)

# A row without the call of its class, which costs as much as all else of a row that is read.
_row = cast("Callable[[Tuple[Any, ...]], Row]", functools.partial(tuple.__new__, Row))


def whole(value: object, name: str) -> int:
    """The number, if it is a whole one."""
    try:
        return operator.index(value)  # type: ignore[arg-type]
    except TypeError:
        raise TypeError(f"{name} is no whole number: {reprlib.repr(value)}") from None


def fits(value: int, bits: int, name: str) -> int:
    """The number, if it is one of so many bits: ctypes would cut it without a word."""
    number = whole(value, name)
    if not 0 <= number < 1 << bits:
        raise OverflowError(f"{name} is not from 0 to {(1 << bits) - 1}: {number}")
    return number


def fits_signed(value: int, name: str) -> int:
    """The number, if it is one of 64 bits with its sign."""
    number = whole(value, name)
    if not -(1 << 63) <= number < 1 << 63:
        raise OverflowError(f"{name} is not from {-(1 << 63)} to {(1 << 63) - 1}: {number}")
    return number


def text_of(value: object, name: str) -> memoryview:
    """The bytes, if they are some: `bytes` of a number would be that many zeros."""
    try:
        return memoryview(value)  # type: ignore[arg-type]
    except TypeError:
        raise TypeError(f"{name} has no bytes: {reprlib.repr(value)}") from None


class Places:
    """Places for rows, one behind the other."""

    def __init__(self, count: int) -> None:
        self.count = count
        self._bytes = bytearray(count * SIZE)
        self._view = memoryview(self._bytes)
        self.address = ctypes.addressof(ctypes.c_char.from_buffer(self._bytes))

    def put(self, row: Row, number: int = 0) -> None:
        """Writes a row to the place of this number."""
        try:
            key, cols, body = row
            # (a body that is too long would be cut without a word)
            PLACE.pack_into(self._bytes, number * SIZE, key, *cols, MOST[len(body)], body)
        except (struct.error, TypeError, ValueError, IndexError):
            self._put_checked(row, number * SIZE)

    def _put_checked(self, row: Row, at: int) -> None:
        """The same, with a word on what is wrong with the row."""
        try:
            key, cols, body = row
            a, b, c, d = cols
        except TypeError:
            raise TypeError(f"row is no key, columns and body: {reprlib.repr(row)}") from None
        except ValueError:
            raise ValueError(f"row has a key, four columns and a body: {reprlib.repr(row)}") from None
        columns = [fits_signed(it, f"cols[{number}]") for number, it in enumerate((a, b, c, d))]
        # (one byte too many is enough: the library refuses the row as too large, whatever is behind)
        some = bytes(text_of(body, "body"))[: _c.BODY + 1]
        PLACE.pack_into(self._bytes, at, fits(key, 64, "key"), *columns, len(some), some)

    def row(self) -> Row:
        """The row in the first place."""
        key, a, b, c, d, length = HEAD.unpack_from(self._bytes)
        return _row((key, (a, b, c, d), bytes(self._view[BODY_AT : BODY_AT + length])))

    def rows(self, count: int) -> List[Row]:
        """The rows in the first places."""
        placed = PLACE.iter_unpack(self._view[: count * SIZE])
        return [_row((key, (a, b, c, d), body[:length])) for key, a, b, c, d, length, body in placed]

    def keys(self, count: int) -> List[int]:
        """The keys in the first places."""
        return [key for (key,) in KEY.iter_unpack(self._view[: count * SIZE])]
