#!/usr/bin/env python3
"""Compares the pictures of random scripts with what the program answers to `page`, `entries`, `fate`, `session` and `explain`:
test_pictures.py HEAPVIEW [COUNT]

A picture is read by an XML parser. What stands beside which slot is told by its height alone, and which session's a dot is by the number
in it. So nothing here knows how a picture is drawn, but for the words that are read in it.
"""
import glob
import os
import random
import re
import subprocess
import sys
import xml.etree.ElementTree as ElementTree
from typing import Dict, Iterator, List, Set, Tuple

TOP = os.path.dirname(os.path.dirname(os.path.dirname(os.path.abspath(__file__))))
SVG = "{http://www.w3.org/2000/svg}"
SCRIPTS = 60
STEPS = 70
KEYS = 6
SESSIONS = 4
PAGES = 3
# how far from the middle of its slot something may stand
NEAR = 8
# how long the program may take
SECONDS = 60

Slot = Tuple[int, int]
Element = ElementTree.Element


def row(draw: random.Random) -> str:
    body = "".join(draw.choice("0123456789abcdef") for _ in range(2 * draw.choice((0, 0, 1, 3, 12)))) or "-"
    columns = " ".join(str(draw.choice((0, 1, -7, 30))) for _ in range(4))
    return f"{draw.randrange(KEYS)} {columns} {body}"


def step(draw: random.Random, are_open: Set[int]) -> str:
    """A step, most often of a session that is open, as far as is known here."""
    s = draw.randrange(SESSIONS)
    if s not in are_open:
        if draw.random() < 0.2:
            return draw.choice([f"prune {draw.randrange(PAGES)}", "vacuum begin normal", "vacuum begin aggressive", "vacuum step", "vacuum finish"])
        are_open.add(s)
        return draw.choice([f"begin {s}", f"begin {s}", f"beginrc {s}"])
    if draw.random() < 0.2:
        are_open.discard(s)
        return draw.choice([f"commit {s}", f"commit {s}", f"abort {s}"])
    writes = [f"insert {s} {row(draw)}", f"update {s} {row(draw)}", f"update {s} {row(draw)}", f"delete {s} {draw.randrange(KEYS)}"]
    return draw.choice(2 * writes + [f"get {s} {draw.randrange(KEYS)}", f"savepoint {s}", f"rollbackto {s}", f"openheap {s}", f"close {s}"])


def script(seed: int) -> List[str]:
    draw = random.Random(seed)
    indexed = "".join(draw.choice("01") for _ in range(4))
    first = draw.choice((3, 3, 100, 2**32 - 20))
    are_open: Set[int] = set()
    return [f"heap {PAGES} 100000 0 {first} 64 {indexed}", *(step(draw, are_open) for _ in range(draw.randrange(5, STEPS)))]


def run(heapview: str, words: List[str], lines: List[str]) -> str:
    text = "".join(f"{line}\n" for line in lines).encode()
    ended = subprocess.run([heapview, *words], input=text, capture_output=True, timeout=SECONDS, check=False)
    assert ended.returncode == 0, f"{words} ended with {ended.returncode}: {ended.stderr.decode()}"
    return ended.stdout.decode()


class Table:
    """What the program answers to looks behind a script."""

    def __init__(self, heapview: str, lines: List[str]) -> None:
        self.heapview, self.lines = heapview, lines
        self.before = len(run(heapview, ["run"], lines).splitlines())
        self.pages: List[List[List[str]]] = []
        for line in self.ask([f"page {page}" for page in range(PAGES)]):
            words = line.split()
            if words[0] == "page":
                self.pages.append([])
            elif words[0] != "error":
                self.pages[-1].append(words)
        answers = self.ask([f"session {s}" for s in range(64)])
        self.sessions = [int(line.split()[1]) for line in answers if line.startswith("session ")]

    def ask(self, looks: List[str]) -> List[str]:
        return run(self.heapview, ["run"], self.lines + looks).splitlines()[self.before :]

    def slots(self) -> Iterator[Slot]:
        for page, slots in enumerate(self.pages):
            for number, _ in enumerate(slots, 1):
                yield page, number

    def entries(self) -> List[Tuple[Slot, str]]:
        found, index = [], 0
        for line in self.ask([f"entries {index}" for index in range(5)]):
            words = line.split()
            if words[0] == "entries":
                index = int(words[1])
            elif words[0] == "entry":
                label = f"key {words[1]}" if index == 0 else f"column {index - 1}: {words[1]}"
                found.append(((int(words[3]), int(words[4])), label))
        return sorted(found)

    def dead(self) -> Set[Slot]:
        slots = list(self.slots())
        fates = self.ask([f"fate {page} {number}" for page, number in slots]) if slots else []
        return {slot for slot, fate in zip(slots, fates) if fate.split()[3:5] in (["dead", "aborted"], ["dead", "deleted"])}

    def explained(self) -> Tuple[Dict[Tuple[int, Slot], bool], Set[Tuple[Slot, Slot]]]:
        """Of each session and each version that some entry of a key leads to, whether it is seen; and which comes after which."""
        seen, links = {}, set()
        for s in self.sessions:
            before = None
            for line in self.ask([f"explain {s} {key}" for key in range(KEYS)]):
                words = line.split()
                if words[0] != "version":
                    before = None
                    continue
                slot = (int(words[1]), int(words[2]))
                seen[s, slot] = words[3] == "seen"
                if before is not None:
                    links.add((before, slot))
                before = slot
        return seen, links


def texts(element: Element) -> str:
    return "".join(element.itertext())


class Picture:
    """The parts of a picture, by the slot that they stand beside."""

    def __init__(self, text: str) -> None:
        self.root = ElementTree.fromstring(text)
        self.middles: List[Tuple[float, Slot]] = []
        self.fills: Dict[Slot, str] = {}
        self.words: Dict[Slot, List[str]] = {}
        self.dots: Dict[Tuple[int, Slot], Tuple[bool, str]] = {}
        self.links: List[Tuple[Slot, Slot, str]] = []
        self.labels: List[Tuple[Slot, str]] = []
        self.sessions: List[int] = []
        page = -1
        for element in self.root:
            words = texts(element)
            if element.tag == f"{SVG}text" and re.match(r"page \d+ change", words):
                page = int(words.split()[1])
            if element.tag == f"{SVG}text" and re.match(r"session \d+ (by|reads)", words):
                self.sessions.append(int(words.split()[1]))
            if element.tag == f"{SVG}rect" and element.get("rx"):
                middle = float(element.get("y")) + float(element.get("height")) / 2
                number = 1 + sum(slot[0] == page for _, slot in self.middles)
                self.middles.append((middle, (page, number)))
                self.fills[page, number] = element.get("fill")
        for element in self.root:
            self.take(element)

    def slot_at(self, y: float) -> Slot:
        distance, slot = min((abs(y - middle), slot) for middle, slot in self.middles)
        assert distance <= NEAR, f"what stands at {y} is beside no slot"
        return slot

    def take(self, element: Element) -> None:
        if element.tag == f"{SVG}text":
            y = float(element.get("y"))
            if self.middles and min(abs(y - middle) for middle, _ in self.middles) <= 1:
                self.words.setdefault(self.slot_at(y), []).append(texts(element))
        if element.tag != f"{SVG}g":
            return
        title = element.find(f"{SVG}title")
        circle = element.find(f"{SVG}circle")
        if title is None:
            text = element.find(f"{SVG}text")
            self.labels.append((self.slot_at(float(text.get("y"))), texts(text)))
        elif circle is not None and texts(title).startswith("Session"):
            slot = self.slot_at(float(circle.get("cy")))
            session = int(texts(element.find(f"{SVG}text")))
            assert (session, slot) not in self.dots, f"two dots of session {session} are beside {slot}"
            self.dots[session, slot] = (circle.get("fill") != "#fff", texts(title))
        elif circle is None:
            ends = re.match(r"M\d+ (\d+)H\d+V(\d+)H\d+$", element.find(f"{SVG}path").get("d"))
            kind = "redirect" if "redirect" in texts(title) else "chain"
            self.links.append((self.slot_at(float(ends[1])), self.slot_at(float(ends[2])), kind))


def words_of(slot: List[str], frozen: bool) -> List[str]:
    """What a box has to say of what `page` tells of its slot."""
    if slot[1] == "normal":
        xmin = f"({slot[2]})" if frozen else slot[2]
        return [f"xmin {xmin}", f"xmax {slot[3] if slot[3] != '0' else '-'}", f"key {slot[4]}"]
    return {"unused": ["unused"], "dead": ["dead slot, until a vacuum frees it"], "redirect": [f"redirect to {slot[-1]}"]}[slot[1]]


def compare(heapview: str, lines: List[str]) -> int:
    """Compares the picture behind a script with the answers there, and counts the dots."""
    table = Table(heapview, lines)
    picture = Picture(run(heapview, ["draw"], lines))
    slots = list(table.slots())
    assert sorted(slot for _, slot in picture.middles) == slots, "there is not a box for each slot"
    assert picture.sessions == table.sessions, "the sessions are not those that are open"
    assert sorted(picture.labels) == table.entries(), "there is not an arrow for each entry"
    dead = table.dead()
    versions = set()
    for page, number in slots:
        slot, words = table.pages[page][number - 1], picture.words[page, number]
        if slot[1] == "normal":
            versions.add((page, number))
        frozen = f"xmin ({slot[2]})" in words if slot[1] == "normal" else False
        assert words[0] == str(number) and set(words_of(slot, frozen)) <= set(words), f"slot {number} of page {page} says {words}"
        assert ("dead" in words) == ((page, number) in dead), f"slot {number} of page {page}: dead, or not"
        white = picture.fills[page, number] == "#fff"
        assert white == (slot[1] == "normal" and (page, number) not in dead), f"slot {number} of page {page}: white, or not"
    assert set(picture.dots) == {(s, slot) for s in table.sessions for slot in versions}, "there is not a dot for each session and version"
    seen, links = table.explained()
    for place, sees in seen.items():
        assert picture.dots[place][0] == sees, f"the dot of session {place[0]} beside {place[1]} is wrong"
    for (session, _), (filled, title) in picture.dots.items():
        start = f"Session {session} {'sees' if filled else 'does not see'} it."
        assert title.startswith(start), f"a dot is filled {filled}, and says {title}"
    chains = [(a, b) for a, b, kind in picture.links if kind == "chain"]
    assert len(chains) == len(set(chains)) and links <= set(chains), "a link of a chain is missing, or is there twice"
    explained = {slot for _, slot in seen}
    if table.sessions:
        assert {link for link in chains if link[0] in explained} == links, "an arrow leads where no chain goes on"
    redirects = [((page, number), (page, int(table.pages[page][number - 1][2]))) for page, number in slots if table.pages[page][number - 1][1] == "redirect"]
    assert [(a, b) for a, b, kind in picture.links if kind == "redirect"] == redirects, "there is not an arrow for each redirect"
    return len(picture.dots)


def kept(heapview: str) -> int:
    """Compares the pictures of README.md and of the example pages with what the program draws behind their lines. Answers how many they are."""
    pictures = {"docs/horizon.svg": ("horizon", "12")}
    for page in sorted(glob.glob(f"{TOP}/examples/*.md")):
        with open(page, encoding="utf-8") as text:
            pictures.update({f"examples/pictures/{name}-{line}.svg": (name, line) for name, line in re.findall(r"\(pictures/(\w+)-(\d+)\.svg\)", text.read())})
    for path in glob.glob(f"{TOP}/examples/pictures/*"):
        if os.path.relpath(path, TOP) not in pictures:
            sys.exit(f"test_pictures.py: no page shows {os.path.relpath(path, TOP)}")
    for path, (name, line) in pictures.items():
        with open(f"{TOP}/examples/{name}.script", encoding="ascii") as script:
            drawn = run(heapview, ["draw", "--line", line], script.read().splitlines())
        with open(f"{TOP}/{path}", encoding="utf-8") as picture:
            if drawn != picture.read():
                sys.exit(f"test_pictures.py: {path} is not what the program draws behind line {line} of examples/{name}.script")
    return len(pictures)


def faults(heapview: str) -> None:
    """What can't be drawn is told in a line, and nothing is written."""
    lines = ["heap 3 1000 0 3 64 0000", "begin 0"]
    for words, script, told in [
        (["--page", "0"], lines, b"page 0 is not in use\n"),
        (["--page", "0"] * 65, lines, b"a picture has at most 64 pages\n"),
        ([], [*lines, "begun 0"], b"bad line 3\n"),
        (["--line", "2"], [*lines, "begun 0"], b""),
    ]:
        ended = subprocess.run([heapview, "draw", *words], input="".join(f"{line}\n" for line in script).encode(), capture_output=True, timeout=SECONDS, check=False)
        assert (ended.returncode, ended.stderr) == (1 if told else 0, told), f"draw {words} ends with {ended.returncode}, {ended.stderr!r}"
        assert bool(ended.stdout) == (not told), f"draw {words} writes {len(ended.stdout)} bytes"


def main() -> None:
    heapview = sys.argv[1]
    count = int(sys.argv[2]) if len(sys.argv) > 2 else SCRIPTS
    pages = kept(heapview)
    faults(heapview)
    dots = 0
    for seed in range(count):
        lines = script(seed)
        try:
            dots += compare(heapview, lines)
        except AssertionError as wrong:
            sys.exit(f"test_pictures.py: script {seed}: {wrong}\n" + "\n".join(lines))
    print(f"test_pictures.py: the pictures of {count} scripts, with {dots} dots, show what is answered; {pages} are on their pages")


if __name__ == "__main__":
    main()
