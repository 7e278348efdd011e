"""Compares what the library says of the bytes of pages with what the text of their format says (page_format.py).

    test_pages.py          tries two changes of each byte of two pages, and all of the header, the pointer and the version of one
    test_pages.py --all    tries every change of each byte, 4,177,920 pages, and prints what they are; some minutes
"""
import ctypes
import random
import sys
import unittest
from collections import Counter
from typing import Iterable, Iterator, Optional, Tuple

import page_format as text
from sandpipercot import FaultKind, PageFault, Row, Table, check_page
from sandpipercot import _c

NAMES = {
    FaultKind.LENGTH: "Length",
    FaultKind.HEADER: "Header",
    FaultKind.BOUNDS: "Bounds",
    FaultKind.POINTER: "BadPointer",
    FaultKind.TUPLE: "BadTuple",
    FaultKind.REDIRECT: "BadRedirect",
    FaultKind.OVERLAP: "Overlap",
}

# Of every change of each byte, what shows the same page, what another, and what is named: for the vector counted by hand, by docs/format.md.
# Each row has the bytes from one place on, up to the next.
BY_HAND = {
    # the change number; the checksum; the flags, of which 4 is another mark; where the pointers end, at another number of slots or at none
    0: Counter(another=8 * 255),
    8: Counter(Header=2 * 255),
    10: Counter(another=1, Header=254 + 255),
    12: Counter(another=57 + 4, Bounds=198 + 251),
    # where the versions begin: each multiple of 8 that is no lower than the pointers, and over the version is its pointer's fault
    14: Counter(same=23 + 31, BadPointer=8, Bounds=224 + 224),
    16: Counter(Header=8 * 255),
    # the pointer, of which no other is right: six lengths are of the same units, so the version is read
    24: Counter(BadPointer=255 + 255 + 249 + 255, BadTuple=6),
    # the gap
    28: Counter(same=8092 * 255),
    # the version: xmin, xmax, cid, ctid's page and its slot, which is 1 to 291; hints, of which three bits are free; then what is fixed
    8120: Counter(another=252 + 3 * 255, BadTuple=3),
    8124: Counter(another=253 + 3 * 255, BadTuple=2),
    8128: Counter(BadTuple=4 * 255),
    8132: Counter(another=4 * 255),
    8136: Counter(another=254 + 1, BadTuple=1 + 254),
    8138: Counter(another=1, BadTuple=255 + 254),
    8140: Counter(another=7, BadTuple=255 + 248),
    8142: Counter(BadTuple=2 * 255),
    # key and columns, the length of the body, and what follows it
    8144: Counter(another=40 * 255),
    8184: Counter(BadTuple=2 * 255),
    8186: Counter(same=6 * 255),
}
# of the other page only that it is as it was
COUNTS = {
    "vector": sum(BY_HAND.values(), Counter()),
    "six slots": Counter(same=2024225, another=44711, Header=3059, Bounds=898, BadPointer=5960, BadTuple=10102, BadRedirect=5),
}
PAGES = {"vector": text.VECTOR, "six slots": text.SIX_SLOTS}


def named(fault: Optional[PageFault]) -> Optional[Tuple[str, int]]:
    return (NAMES[fault.kind], fault.slot) if fault else None


def named_by_text(page: bytes) -> Optional[Tuple[str, int]]:
    fault = text.fault_of(page)
    return (fault.name, fault.slot) if fault else None


def changes(page: bytearray, whole: bool, places: Iterable[int]) -> Iterator[None]:
    """Changes each of these bytes to each other value, or to two of them, and back."""
    for at in places:
        was = page[at]
        for value in range(256) if whole else (at * 7 + 13 & 255, was ^ 1):
            if value != was:
                page[at] = value
                yield
        page[at] = was


def count(page: bytes, whole: bool, places: Iterable[int] = range(text.SIZE)) -> "Counter[str]":
    """What the changes of these bytes of the page are, where library and text agree on each."""
    same, changed, slot = text.shown_by(page), bytearray(page), ctypes.c_uint32()
    place = ctypes.addressof((ctypes.c_uint8 * len(page)).from_buffer(changed))
    counts: "Counter[str]" = Counter()
    for _ in changes(changed, whole, places):
        kind = _c.CALLS["check_page"](place, len(changed), ctypes.addressof(slot))
        said = (NAMES[FaultKind(kind)], slot.value) if kind else None
        expected = named_by_text(changed)
        assert said == expected, (said, expected, changed.hex())
        counts[expected[0] if expected else "same" if text.shown_by(changed) == same else "another"] += 1
    return counts


def with_bytes(at: int, part: bytes) -> bytes:
    return text.VECTOR[:at] + part + text.VECTOR[at + len(part) :]


class PagesTest(unittest.TestCase):
    def test_first_insert(self) -> None:
        with Table() as table:
            with table.begin() as session:
                session.insert(Row(1, (5, 0, 0, 0), b""))
            self.assertEqual(table.page_bytes(0), text.VECTOR)
            self.assertIsNone(table.page_bytes(1))
        self.assertEqual(text.VECTOR[:28].hex(), "01000000000000000000" + "00001c00b81f0020042000000000" + "b89f8400")
        self.assertEqual(text.VECTOR[8120:8146].hex(), "0300000000000000000000000000000001000600000818000100")

    def test_versions_are_moved_together(self) -> None:
        """Seven versions of 1096 bytes; the third goes, and another takes its slot: there is room for it in all, and in no gap."""
        with Table(max_pages=1) as table:
            with table.begin() as session:
                session.insert_many(Row(key, (0, 0, 0, 0), bytes(1024)) for key in range(1, 8))
            self.assertEqual(self.offsets(table), [7096, 6000, 4904, 3808, 2712, 1616, 520])
            with table.begin() as session:
                session.delete(3)
            table.vacuum()
            with table.begin() as session:
                session.insert(Row(8, (0, 0, 0, 0), bytes(1024)))
            self.assertEqual(self.offsets(table), [7096, 6000, 520, 4904, 3808, 2712, 1616])

    def offsets(self, table: Table) -> "list[int]":
        page = table.page_bytes(0)
        assert page is not None and check_page(page) is None
        return [offset for offset, _, _ in text.pointers(page, len(text.shown_by(page).slots))]

    def test_first_fault(self) -> None:
        rows = [
            (text.VECTOR[:-1], ("Length", 0)),
            (text.VECTOR + b"\0", ("Length", 0)),
            (b"", ("Length", 0)),
            (with_bytes(10, b"\1"), ("Header", 0)),
            (with_bytes(12, b"\x1a"), ("Bounds", 0)),
            (with_bytes(24, bytes.fromhex("c09f8400")), ("BadPointer", 1)),
            (with_bytes(8140, b"\0\0"), ("BadTuple", 1)),
            (with_bytes(24, bytes.fromhex("01000100")), ("BadRedirect", 1)),
            (with_bytes(12, b"\x20")[:28] + text.VECTOR[24:28] + text.VECTOR[32:], ("Overlap", 2)),
            (text.VECTOR, None),
            (text.SIX_SLOTS, None),
        ]
        for page, fault in rows:
            self.assertEqual(named(check_page(page)), fault)
            self.assertEqual(named_by_text(page), fault)

    def test_each_byte(self) -> None:
        for page in PAGES.values():
            self.assertGreater(count(page, False)["another"], 0)

    def test_each_change_by_hand(self) -> None:
        """Each change of what is no gap is what was counted by hand: so no reading that the library shares is taken for right."""
        for first, end in zip(BY_HAND, [*list(BY_HAND)[1:], text.SIZE]):
            if end - first < 1000:
                self.assertEqual(count(text.VECTOR, True, range(first, end)), BY_HAND[first], first)

    def test_pointers(self) -> None:
        """A pointer leads to another version or somewhat beside it, and a byte of the pointers and bounds is another's."""
        draw = random.Random(1)
        seen: "Counter[Optional[str]]" = Counter()
        for _ in range(20000):
            page = bytearray(text.SIX_SLOTS)
            of, to = 24 + 4 * draw.choice((2, 4, 5)), 24 + 4 * draw.randrange(6)
            word = int.from_bytes(page[of : of + 4], "little") + 8 * draw.randrange(-2, 3)
            page[to : to + 4] = word.to_bytes(4, "little")
            if draw.random() < 0.5:
                page[draw.choice([*range(12, 16), *range(24, 48)])] = draw.choice(page[12:48])
            expected = named_by_text(page)
            self.assertEqual(named(check_page(bytes(page))), expected)
            seen[expected[0] if expected else None] += 1
        for name in ("Bounds", "BadPointer", "BadTuple", "BadRedirect", "Overlap", None):
            self.assertGreater(seen[name], 0, name)

    def test_pages_of_a_table(self) -> None:
        """After steps drawn at random each page is accepted, and shows the slots that the table tells of."""
        draw = random.Random(2)
        with Table(max_pages=4, indexed=(True, False, False, False)) as table:
            for _ in range(300):
                session = table.begin(read_committed=draw.random() < 0.5)
                for _ in range(draw.randrange(8)):
                    self.write(draw, session)
                session.abort() if draw.random() < 0.2 else session.commit()
                if table.state().pages:
                    table.prune(0)
                if draw.random() < 0.05:
                    table.vacuum(draw.random() < 0.5)
                self.compare(table)

    def write(self, draw: random.Random, session: "object") -> None:
        row = Row(draw.randrange(60), (draw.randrange(3), 0, 0, 0), bytes(draw.randrange(400)))
        if session.get(row.key) is None:  # type: ignore[attr-defined]
            session.insert(row)  # type: ignore[attr-defined]
        elif draw.random() < 0.3:
            session.delete(row.key)  # type: ignore[attr-defined]
        else:
            session.update(row)  # type: ignore[attr-defined]

    def compare(self, table: Table) -> None:
        for number in range(table.state().pages):
            page = table.page_bytes(number)
            assert page is not None
            self.assertEqual((check_page(page), text.fault_of(page)), (None, None))
            shown = text.shown_by(page)
            told = [(slot.kind, slot.target, slot.xmin, slot.xmax, slot.key) for slot in table.slots(number)]
            versions = [it.version or text.Version(0, 0, 0, 0, 0, 0, 0, (0, 0, 0, 0), b"") for it in shown.slots]
            read = [(it.kind, it.target, its.xmin, its.xmax, its.key) for it, its in zip(shown.slots, versions)]
            self.assertEqual(read, told)


def main() -> None:
    if sys.argv[1:] != ["--all"]:
        unittest.main()
    for name, page in PAGES.items():
        counts = count(page, True)
        print(name, dict(counts))
        assert counts == COUNTS[name]


if __name__ == "__main__":
    main()
