"""The bytes of pages, which may come from anywhere."""
from __future__ import annotations

import ctypes
import enum
from typing import NamedTuple, Optional

from . import _c
from .rows import text_of


class FaultKind(enum.IntEnum):
    """What can be wrong with the bytes of a page, in the order in which it is looked for."""

    LENGTH = 1
    HEADER = 2
    BOUNDS = 3
    POINTER = 4
    TUPLE = 5
    REDIRECT = 6
    OVERLAP = 7


class PageFault(NamedTuple):
    """What is wrong with the bytes of a page, and the slot that has it, or 0."""

    kind: FaultKind
    slot: int


def check_page(page: bytes) -> Optional[PageFault]:
    """What is wrong first with these bytes, as those of a page (docs/format.md), or None. It needs no table."""
    given, slot = bytes(text_of(page, "page")), ctypes.c_uint32()
    kind = _c.CALLS["check_page"](ctypes.cast(ctypes.c_char_p(given), ctypes.c_void_p).value or 0, len(given), ctypes.addressof(slot))
    return PageFault(FaultKind(kind), slot.value) if kind else None
