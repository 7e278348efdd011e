"""Tells the story of a script by the Python module, where the program heapview is there, and asks for one where it is not."""
from __future__ import annotations

import os
import pathlib
import unittest
from unittest import mock

import sandpipercot as sp
from sandpipercot import stories

HORIZON = pathlib.Path(__file__).resolve().parents[2] / "examples" / "horizon.script"


class Stories(unittest.TestCase):
    @unittest.skipUnless(stories._program(), "heapview is not there")
    def test_page(self) -> None:
        script = HORIZON.read_text(encoding="utf-8")
        told = sp.story(script)
        self.assertEqual(told.page.count("<section>"), len(script.splitlines()))
        self.assertIn("<li>get 1 1<i>row 1 5 0 0 0 -\n</i></li>", told.page)
        self.assertTrue(told._repr_html_().startswith('<iframe srcdoc="&lt;!doctype html&gt;'))

    @unittest.skipUnless(stories._program(), "heapview is not there")
    def test_bad_line(self) -> None:
        with self.assertRaisesRegex(sp.NoStory, "bad line 2"):
            sp.story("heap 4 1000 0 3 64 0000\nbegone\n")

    def test_no_program(self) -> None:
        with mock.patch.object(stories, "_program", return_value=None):
            with self.assertRaisesRegex(sp.NoHeapview, "tools/quick.sh PREFIX heapview"):
                sp.story("heap 4 1000 0 3 64 0000\n")
        with mock.patch.dict(os.environ, {"HEAPVIEW": "/nowhere/heapview"}):
            with self.assertRaisesRegex(sp.NoHeapview, "/nowhere/heapview"):
                sp.story("heap 4 1000 0 3 64 0000\n")


if __name__ == "__main__":
    unittest.main()
