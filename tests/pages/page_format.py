"""The bytes of a page, read by the text of docs/format.md alone, beside the library's own reading.

`read` says of any bytes what is wrong first, or what they show. It shares nothing with the library.
"""
from struct import Struct
from typing import List, NamedTuple, Optional, Tuple

SIZE = 8192
MOST_SLOTS = 291
UNUSED, NORMAL, REDIRECT, DEAD = range(4)
HEAP_ONLY, HOT_UPDATED = 0x8000, 0x4000
XMAX_COMMITTED, XMAX_INVALID = 0x0400, 0x0800
MASKS = 0x0100 | 0x0200 | XMAX_COMMITTED | XMAX_INVALID | 0x2000

HEADER = Struct("<QHHHHHHI")
VERSION = Struct("<IIIHHHHHBBQqqqqH")


class Fault(NamedTuple):
    """What is wrong first: with the page, or with the slot of this number; of a version what is wrong with it."""

    name: str
    slot: int = 0
    inner: str = ""


class Version(NamedTuple):
    xmin: int
    xmax: int
    page: int
    slot: int
    mask2: int
    mask: int
    key: int
    columns: Tuple[int, int, int, int]
    body: bytes


class Slot(NamedTuple):
    """What a pointer shows: its kind; where a redirect leads; a version."""

    kind: int
    target: int = 0
    version: Optional[Version] = None


class Page(NamedTuple):
    change: int
    flags: int
    slots: Tuple[Slot, ...]


def version_fault(part: bytes) -> Optional[str]:
    """The first thing that is wrong with the bytes of a version."""
    if len(part) < 66:
        return "Length"
    xmin, xmax, cid, _, _, slot, mask2, mask, hoff, padding, _, _, _, _, _, length = VERSION.unpack_from(part)
    if length > 1024 or len(part) != 66 + length:
        return "Length"
    if hoff != 24:
        return "Hoff"
    if cid != 0:
        return "Cid"
    if padding != 0:
        return "Padding"
    if mask2 & 0x07FF != 6:
        return "Attributes"
    both = XMAX_COMMITTED | XMAX_INVALID
    if mask2 & ~(0x07FF | HEAP_ONLY | HOT_UPDATED) or mask & ~MASKS or mask & both == both:
        return "Masks"
    if xmin < 3:
        return "Xmin"
    if xmax in (1, 2) or xmax == 0 and (not mask & XMAX_INVALID or mask2 & HOT_UPDATED):
        return "Xmax"
    if not 1 <= slot <= MOST_SLOTS:
        return "Ctid"
    return None


def version_of(part: bytes) -> Version:
    xmin, xmax, _, high, low, slot, mask2, mask, _, _, key, a, b, c, d, length = VERSION.unpack_from(part)
    return Version(xmin, xmax, high << 16 | low, slot, mask2, mask, key, (a, b, c, d), bytes(part[66 : 66 + length]))


def pointers(page: bytes, count: int) -> List[Tuple[int, int, int]]:
    """Offset, kind and length of each line pointer."""
    words = Struct(f"<{count}I").unpack_from(page, 24)
    return [(word & 0x7FFF, word >> 15 & 3, word >> 17) for word in words]


def rounded(length: int) -> int:
    return (length + 7) // 8 * 8


def slot_fault(page: bytes, slot: int, pointer: Tuple[int, int, int], count: int, upper: int) -> Optional[Fault]:
    offset, kind, length = pointer
    if kind in (UNUSED, DEAD):
        return Fault("BadPointer", slot) if offset or length else None
    if kind == REDIRECT:
        return Fault("BadPointer", slot) if length or not 1 <= offset <= count else None
    if length < 66 or offset % 8 or offset < upper or offset + rounded(length) > SIZE:
        return Fault("BadPointer", slot)
    inner = version_fault(page[offset : offset + length])
    return Fault("BadTuple", slot, inner) if inner else None


def overlap(places: List[Tuple[int, int, int]]) -> Optional[Fault]:
    """The lowest slot whose version shares bytes with that of a lower slot, the rounding counted in."""
    for later, (offset, kind, length) in enumerate(places):
        for start, other, size in places[:later]:
            if kind == other == NORMAL and offset < start + rounded(size) and start < offset + rounded(length):
                return Fault("Overlap", later + 1)
    return None


def fault_of(page: bytes) -> Optional[Fault]:
    """The first thing that is wrong with the bytes of a page."""
    if len(page) != SIZE:
        return Fault("Length")
    _, checksum, flags, lower, upper, special, version, prune = HEADER.unpack_from(page)
    if checksum or flags not in (0, 4) or special != SIZE or version != SIZE + 4 or prune:
        return Fault("Header")
    if not 24 <= lower <= 24 + 4 * MOST_SLOTS or (lower - 24) % 4 or not lower <= upper <= SIZE or upper % 8:
        return Fault("Bounds")
    count = (lower - 24) // 4
    places = pointers(page, count)
    for number, pointer in enumerate(places, 1):
        if fault := slot_fault(page, number, pointer, count, upper):
            return fault
    for number, (target, kind, _) in enumerate(places, 1):
        if kind == REDIRECT:
            offset, other, _ = places[target - 1]
            if other != NORMAL or not page[offset + 19] & (HEAP_ONLY >> 8):
                return Fault("BadRedirect", number)
    return overlap(places)


def shown_by(page: bytes) -> Page:
    """What the bytes of a page show, which have no fault."""
    change, _, flags, lower, *_ = HEADER.unpack_from(page)
    slots = []
    for offset, kind, length in pointers(page, (lower - 24) // 4):
        if kind == NORMAL:
            slots.append(Slot(kind, 0, version_of(page[offset : offset + length])))
        else:
            slots.append(Slot(kind, offset))
    return Page(change, flags, tuple(slots))


def version_bytes(version: Version) -> bytes:
    high, low = version.page >> 16, version.page & 0xFFFF
    fields = (version.xmin, version.xmax, 0, high, low, version.slot, version.mask2, version.mask, 24, 0, version.key)
    return VERSION.pack(*fields, *version.columns, len(version.body)) + version.body


def page_bytes(shown: Page) -> bytes:
    """A page that shows this, its versions from the end downward in order of slots."""
    page, upper = bytearray(SIZE), SIZE
    for number, slot in enumerate(shown.slots):
        offset, length = slot.target, 0
        if slot.version:
            part = version_bytes(slot.version)
            upper -= rounded(len(part))
            offset, length = upper, len(part)
            page[offset : offset + length] = part
        page[24 + 4 * number : 28 + 4 * number] = (offset | slot.kind << 15 | length << 17).to_bytes(4, "little")
    HEADER.pack_into(page, 0, shown.change, 0, shown.flags, 24 + 4 * len(shown.slots), upper, SIZE, SIZE + 4, 0)
    return bytes(page)


def plain(key: int, first: int = 0) -> Version:
    return Version(3, 0, 0, 1, 6, XMAX_INVALID, key, (first, 0, 0, 0), b"")


# the first insert into a new table: key 1, column 0 equal to 5
VECTOR = page_bytes(Page(1, 0, (Slot(NORMAL, 0, plain(1, 5)),)))

# a slot of each kind, a chain and a deleted version
SIX_SLOTS = page_bytes(
    Page(
        9,
        0,
        (
            Slot(REDIRECT, 3),
            Slot(UNUSED),
            Slot(NORMAL, 0, Version(4, 0, 0, 3, 0x8006, 0x2800, 1, (6, 0, 0, 0), b"hello")),
            Slot(DEAD),
            Slot(NORMAL, 0, Version(5, 7, 0, 6, 0x4006, 0x0000, 9, (1, -1, 2, -2), b"")),
            Slot(NORMAL, 0, Version(7, 0, 0, 6, 0x8006, 0x2900, 9, (1, -1, 2, -3), b"xyz")),
        ),
    )
)
