"""The story of a script: a page of HTML to step through, which the program heapview makes."""
from __future__ import annotations

import html
import os
import pathlib
import shutil
import subprocess
from typing import NamedTuple, Optional


class NoHeapview(RuntimeError):
    """The program heapview was not found."""


class NoStory(ValueError):
    """Why a script has no story, in the words of the program: a line that isn't allowed, or more lines or pages than a story has."""


class Story(NamedTuple):
    """A page of HTML that needs nothing else. A notebook shows it in a frame; written to a file it is for a browser."""

    page: str

    def _repr_html_(self) -> str:
        return f'<iframe srcdoc="{html.escape(self.page)}" style="width:100%;height:36rem;border:1px solid #ccc"></iframe>'


def _program() -> Optional[str]:
    """HEAPVIEW names it; else it is on the path, or under the prefix where tools/quick.sh has put it beside this module."""
    beside = pathlib.Path(__file__).resolve().parents[3] / "bin" / "heapview"
    return os.environ.get("HEAPVIEW") or shutil.which("heapview") or (str(beside) if beside.exists() else None)


def story(script: str) -> Story:
    """The story of a script (docs/script.md) that may have looks (docs/looks.md): its lines with their answers, and the table behind each.

    The script runs in a process of its own, on a table of its own. So it needs the program heapview, and raises NoHeapview without it.
    """
    program = _program()
    if program is None:
        raise NoHeapview("the program heapview was not found: make it by tools/quick.sh PREFIX heapview, and put PREFIX/bin on the path")
    try:
        ended = subprocess.run([program, "story"], input=script.encode(), capture_output=True, check=False)
    except OSError as fault:
        raise NoHeapview(f"the program heapview at {program} does not run: {fault}") from fault
    if ended.returncode != 0:
        raise NoStory(ended.stderr.decode(errors="replace").strip() or f"heapview ended with {ended.returncode}")
    return Story(ended.stdout.decode())
