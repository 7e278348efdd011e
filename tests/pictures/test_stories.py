#!/usr/bin/env python3
"""Compares the stories of the examples' scripts with what the program answers to each line, and steps through three in a browser:
test_stories.py HEAPVIEW

The browser is Debian's chromium without a window. Where there is none, that part is left out, and said to be. It gets each page with a
script behind it, which presses keys, clicks and notes what is shown.
"""
import glob
import html.parser
import json
import os
import re
import shutil
import subprocess
import sys
import tempfile
from typing import List, Tuple

TOP = os.path.dirname(os.path.dirname(os.path.dirname(os.path.abspath(__file__))))
# how long a program may take
SECONDS = 120
IN_BROWSER = ("horizon", "update_chain", "savepoints")

STEPS = """
<script>
const noted = [], press = key => dispatchEvent(new KeyboardEvent('keydown', {key, cancelable: true}));
function note() {
  const on = all => [...document.querySelectorAll(all)].map((one, i) => one.classList.contains('on') ? i : -1).filter(i => i >= 0);
  const shown = [...document.querySelectorAll('section')].flatMap((one, i) => one.offsetHeight > 0 ? [i] : []);
  noted.push([on('li'), on('section'), shown, location.hash, document.querySelector('section.on h1').textContent]);
}
note();
for (const key of ['ArrowDown', 'ArrowRight', 'ArrowDown', 'ArrowUp', 'ArrowLeft']) { press(key); note(); }
document.querySelectorAll('li')[4].click();
note();
for (let i = 0; i < 3000; i++) press('ArrowDown');
note();
press('ArrowLeft');
note();
document.body.innerHTML = '<pre id=noted></pre>';
document.getElementById('noted').textContent = JSON.stringify(noted);
</script>
"""


class Story(html.parser.HTMLParser):
    """The lines of a story with their answers, and of each section its heading, its sentences, and how many pictures it has."""

    def __init__(self, text: str) -> None:
        super().__init__()
        self.items: List[List[str]] = []
        self.sections: List[Tuple[List[str], List[str], List[str]]] = []
        self.into: List[List[str]] = []
        self.feed(text)
        self.close()

    def handle_starttag(self, tag: str, attrs: List[Tuple[str, object]]) -> None:
        if tag == "li":
            self.items.append([""])
            self.into.append(self.items[-1])
        elif tag == "i":
            self.items[-1].append("")
        elif tag == "section":
            self.sections.append(([], [], []))
        elif tag in ("h1", "p", "svg") and self.sections:
            part = self.sections[-1][("h1", "p", "svg").index(tag)]
            part.append("")
            self.into.append(part)

    def handle_endtag(self, tag: str) -> None:
        if tag in ("li", "h1", "p", "svg") and self.into:
            self.into.pop()

    def handle_data(self, data: str) -> None:
        if self.into:
            self.into[-1][-1] += data


def run(heapview: str, words: List[str], script: bytes) -> str:
    ended = subprocess.run([heapview, *words], input=script, capture_output=True, timeout=SECONDS, check=False)
    assert ended.returncode == 0, f"{words} ended with {ended.returncode}: {ended.stderr.decode()}"
    return ended.stdout.decode()


def answers(heapview: str, lines: List[str]) -> List[str]:
    """The answer to each line behind the first, as a journal has it."""
    journal = run(heapview, ["journal"], "".join(f"{line}\n" for line in lines).encode())
    parts = re.split(r"^> (.*)\n", journal, flags=re.M)
    assert parts[1::2] == lines[1:], "a journal has not the script's lines"
    return parts[2::2]


def same(heapview: str, name: str, lines: List[str]) -> Story:
    """Each line with its answer, and of each a heading and a picture; above that of a get or a write what it finds."""
    story = Story(run(heapview, ["story"], "".join(f"{line}\n" for line in lines).encode()))
    wanted = [[lines[0]]] + [[line, answer] for line, answer in zip(lines[1:], answers(heapview, lines))]
    assert story.items == wanted, f"{name}: the lines and answers of the story are not those of the program"
    assert [headings for headings, _, _ in story.sections] == [[line] for line in lines], f"{name}: a heading is not its line"
    assert all(len(pictures) == 1 for _, _, pictures in story.sections), f"{name}: there is not a picture for each line"
    for line, (_, sentences, _) in zip(lines, story.sections):
        reads = line.split()[0] in ("get", "insert", "update", "delete")
        assert reads or not sentences, f"{name}: {line} reads nothing, and is explained by {sentences}"
    return story


def sentences(heapview: str) -> None:
    """A get, a write and an answer with what HTML would read, word for word."""
    lines = ["heap 3 1000 0 3 64 0000", "begin 0", "insert 0 1 1 2 3 4 3c2f703e26", "get 0 1", "get 0 2", "get 9 1", "delete 0 1", "ids"]
    story = same(heapview, "sentences", lines)
    found = ["An entry of key 1 leads to slot 1 of page 0.", "Slot 1: Session 0 sees it. Made by 3, an id of its own. Nobody deleted it."]
    told = [[], [], ["No entry has key 1."], found, ["No entry has key 2."], [], found, []]
    assert [given for _, given, _ in story.sections] == told, f"a read is not explained so: {[given for _, given, _ in story.sections]}"
    text = run(heapview, ["story"], "".join(f"{line}\n" for line in lines).encode())
    assert "&lt;/p" in text and "</p>&<" not in text, "a body is not escaped"


def bounds(heapview: str) -> None:
    """The longest story, and one line more; the most pages, and one more; a bad line."""
    lines = ["heap 65 1000 0 3 64 0000", "begin 0", *["ids"] * 1998]
    assert len(same(heapview, "longest", lines).items) == 2000, "the longest story has not 2000 lines"
    wide = ["heap 65 1000 0 3 64 0000", "begin 0", *(f"insert 0 {key} 0 0 0 0 {'00' * 1024}" for key in range(7 * 64))]
    same(heapview, "widest", wide)
    for script, fault in (
        ([*lines, "ids"], "a story has at most 2000 lines"),
        ([*wide, f"insert 0 {7 * 64} 0 0 0 0 {'00' * 1024}"], "a picture has at most 64 pages"),
        (["heap 3 1000 0 3 64 0000", "begin 0", "begone 0"], "bad line 3"),
        (["begin 0"], "bad line 1"),
    ):
        ended = subprocess.run([heapview, "story"], input="".join(f"{line}\n" for line in script).encode(), capture_output=True, timeout=SECONDS, check=False)
        told = (ended.returncode, ended.stdout, ended.stderr.decode())
        assert told[0] != 0 and told[1] == b"" and fault in told[2], f"a story with a fault ends with {told}"


def stepped(browser: str, heapview: str, name: str) -> None:
    """The keys, clicks and address move the line, the section that is shown is the line's alone, and the console stays empty."""
    with open(f"{TOP}/examples/{name}.script", encoding="utf-8") as file:
        lines = file.read().splitlines()
    last = len(lines) - 1
    with tempfile.TemporaryDirectory() as folder:
        with open(f"{folder}/story.html", "w", encoding="utf-8") as file:
            file.write(run(heapview, ["story"], "".join(f"{line}\n" for line in lines).encode()) + STEPS)
        words = [browser, "--headless", "--no-sandbox", "--disable-gpu", "--enable-logging=stderr", f"--user-data-dir={folder}/profile"]
        address = f"file://{folder}/story.html#3"
        ended = subprocess.run([*words, "--virtual-time-budget=5000", "--dump-dom", address], capture_output=True, timeout=SECONDS, check=True)
    console = [line for line in ended.stderr.decode().splitlines() if "CONSOLE" in line]
    assert not console, f"{name}: the browser says {console}"
    found = re.search(r"<pre id=\"noted\">(.*?)</pre>", ended.stdout.decode(), re.S)
    assert found, f"{name}: the browser did not get to the end of the page"
    noted = json.loads(html.unescape(found.group(1)))
    wanted = [[[at], [at], [at], f"#{at + 1}", lines[at]] for at in (2, 3, 4, 5, 4, 3, 4, last, last - 1)]
    assert noted == wanted, f"{name}: the browser shows {noted}, and not {wanted}"


def main() -> None:
    heapview = sys.argv[1]
    scripts = sorted(glob.glob(f"{TOP}/examples/*.script"))
    told = 0
    for path in scripts:
        with open(path, encoding="utf-8") as file:
            lines = file.read().splitlines()
        if subprocess.run([heapview, "run"], input="\n".join([*lines, ""]).encode(), capture_output=True, timeout=SECONDS, check=False).returncode == 0:
            same(heapview, os.path.basename(path), lines)
            told += 1
    sentences(heapview)
    bounds(heapview)
    browser = shutil.which("chromium")
    for name in IN_BROWSER if browser else ():
        stepped(browser, heapview, name)
    where = f"{len(IN_BROWSER)} of them were stepped through in a browser" if browser else "no chromium here: none was opened in a browser"
    print(f"the stories of {told} scripts have what is answered; {where}")


if __name__ == "__main__":
    main()
