"""Pictures of a table, which a notebook shows."""
from __future__ import annotations

import ctypes
from typing import Callable, Iterable, NamedTuple, Optional

from .rows import fits
from .statuses import NoPlace

ROOM = 65536  # bytes for a picture at first


class Picture(NamedTuple):
    """A picture of a table, as SVG. A notebook shows it; written to a file it is for a browser."""

    svg: str

    def _repr_svg_(self) -> str:
        return self.svg


def draw(call: Callable[..., int], pages: Optional[Iterable[int]]) -> Picture:
    """The picture that a call of the library draws of these pages, or of all."""
    numbers = [] if pages is None else [fits(page, 32, "page") for page in pages]
    if pages is not None and not numbers:
        raise ValueError("pages names none: leave it out for a picture of all")
    places, length, room = (ctypes.c_uint32 * max(1, len(numbers)))(*numbers), ctypes.c_size_t(), ROOM
    while True:
        text = ctypes.create_string_buffer(room)
        try:
            call("draw", ctypes.addressof(places), len(numbers), ctypes.addressof(text), room, ctypes.addressof(length))
            return Picture(ctypes.string_at(text, length.value).decode())
        except NoPlace:
            room = length.value
