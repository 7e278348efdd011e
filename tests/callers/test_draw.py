"""Draws tables by the Python module: beside the pictures of the documents, what heapview draws behind the same steps, and what notebooks ask for.
test_draw.py [COUNT]: of so many random scripts, those of tests/pictures."""
from __future__ import annotations

import os
import pathlib
import subprocess
import sys
import unittest
import xml.etree.ElementTree as ElementTree
from typing import Iterable, List, Optional
from unittest import mock

import sandpipercot as sp
from sandpipercot import Row, Table, _c, pictures, stories

ROOT = pathlib.Path(__file__).resolve().parents[2]
sys.path.insert(0, str(ROOT / "tests" / "pictures"))
import test_pictures  # noqa: E402

SCRIPTS = 60
HORIZON = (ROOT / "examples/horizon.script").read_text(encoding="ascii").splitlines()
# the calls of lines that are a verb and numbers
CALLS = {
    "begin": "begin",
    "beginrc": "begin_read_committed",
    "commit": "commit",
    "abort": "abort",
    "delete": "delete",
    "savepoint": "savepoint",
    "rollbackto": "rollback_to",
    "openheap": "open_heap",
    "close": "close_cursor",
    "prune": "prune",
}


def made(lines: List[str]) -> Table:
    """The table behind the lines of a script. What a line is answered is compared elsewhere."""
    pages, stop, least, first, dead = map(int, lines[0].split()[1:6])
    flags = [it == "1" for it in lines[0].split()[6]]
    table = Table(max_pages=pages, stop_age=stop, freeze_min_age=least, first_xid=first, dead_limit=dead, indexed=flags)
    for line in lines[1:]:
        does(table, *line.split())
    return table


def does(table: Table, verb: str, *words: str) -> None:
    place, piece, at = _c.Row(), _c.Piece(), table._address
    if verb in ("insert", "update"):
        body = bytes.fromhex(words[6].strip("-"))
        place = _c.Row(int(words[1]), (_c.c_int64 * 4)(*map(int, words[2:6])), len(body), (_c.c_uint8 * _c.BODY)(*body))
        _c.CALLS[verb](at, int(words[0]), _c.ctypes.addressof(place))
    elif verb == "get":
        _c.CALLS[verb](at, int(words[0]), int(words[1]), _c.ctypes.addressof(place))
    elif verb == "vacuum" and words[0] == "begin":
        _c.CALLS["vacuum_begin"](at, words[1] == "aggressive")
    elif verb == "vacuum":
        while _c.CALLS["vacuum_step"](at, _c.ctypes.addressof(piece)) == sp.Status.WORKED and words[0] == "finish":
            continue
    else:
        _c.CALLS[CALLS[verb]](at, *map(int, words))


def by_heapview(lines: List[str], pages: Iterable[int]) -> str:
    words = [word for page in pages for word in ("--page", str(page))]
    text = "".join(f"{line}\n" for line in lines).encode()
    return subprocess.run([str(stories._program()), "draw", *words], input=text, capture_output=True, check=True).stdout.decode()


class Draw(unittest.TestCase):
    def assert_drawn(self, svg: str, lines: List[str], pages: Optional[List[int]] = None) -> None:
        root = ElementTree.fromstring(svg)
        self.assertEqual(root.tag, "{http://www.w3.org/2000/svg}svg")
        self.assertEqual(svg, by_heapview(lines, pages or []))

    def test_kept(self) -> None:
        """The picture of README.md, which tests/pictures compares with what heapview draws, is that of the steps before line 13."""
        table = made(HORIZON[:12])
        kept = (ROOT / "docs/horizon.svg").read_text(encoding="utf-8")
        self.assertEqual(table.draw().svg, kept)
        self.assertEqual((table._repr_svg_(), table.draw()._repr_svg_(), table.draw([0]).svg), (kept, kept, kept))
        # (the length is told where there is no room for it)
        with mock.patch.object(pictures, "ROOM", 1):
            self.assertEqual(table.draw().svg, kept)
        ElementTree.fromstring(kept)

    @unittest.skipUnless(stories._program(), "heapview is not there")
    def test_random(self) -> None:
        """Behind random scripts."""
        pages = 0
        for seed in range(SCRIPTS):
            lines = test_pictures.script(seed)
            with self.subTest(seed=seed), made(lines) as table:
                self.assert_drawn(table.draw().svg, lines)
                pages += table.state().pages
        self.assertGreater(pages, SCRIPTS // 2)

    @unittest.skipUnless(stories._program(), "heapview is not there")
    def test_named(self) -> None:
        """Pages in the order in which they are named."""
        lines = ["heap 4 1000 0 3 64 0001", "begin 0", *(f"insert 0 {key} 0 0 0 {-key} {bytes(1000).hex()}" for key in range(18))]
        with made(lines) as table:
            self.assertEqual(table.state().pages, 3)
            for pages in ([], [0, 1, 2], [2, 0], [1], [1, 1, 2, 0]):
                self.assert_drawn(table.draw(pages or None).svg, lines, pages)

    def test_escaped(self) -> None:
        """What a body has of XML's own is no XML."""
        with Table() as table, table.begin() as session:
            session.insert(Row(1, body=b"<a>&</a>"))
            words = "".join(ElementTree.fromstring(table.draw().svg).itertext())
            self.assertIn("<a>&</a>", words)

    def test_refused(self) -> None:
        with Table() as table:
            self.assertTrue(table.draw().svg.endswith("</svg>"))
            for kind, pages in [(sp.NoSuchPage, [0]), (sp.TooManyPages, [0] * 65), (ValueError, []), (OverflowError, [-1]), (TypeError, ["0"])]:
                with self.assertRaises(kind):
                    table.draw(pages)
        for draw in (table.draw, table._repr_svg_):
            with self.assertRaises(sp.NoEngine):
                draw()


if __name__ == "__main__":
    if len(sys.argv) > 1:
        SCRIPTS = int(sys.argv.pop())
    unittest.main()
