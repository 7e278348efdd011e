"""Refuses each piece of memory that the program asks for, in turn: in a script with every kind of step, on a small table and on a large
one, in a script for threads, and in a look into a page: test_refused.py HEAPSH HEAPJUDGE

A step whose growth is refused is answered `error 16 NoMemory`. Then the program shows ids, pages, entries and rows, which have to be those
before the step, and the step is asked for again. What it and all lines behind it are answered has to be what a run with memory answers.
That, and the journal of each run by threads, heapjudge has to allow.
Where the shell itself is refused, it ends with status 3 and `no memory`, after a beginning of the answers.

By threads the refused step is asked for again at once, and then the worker reads all rows, by the heap and by each index. One thread, to
which the journal is given without the refused step, has to answer all other steps alike, and looks at the entries there and at the end.
What two workers are refused differs from run to run, so it is tried some times whether the same step is refused anew.

Each time the entries are looked at as well: each leads to a version of its key, by a redirect or at once, or to a dead slot; and where
it was there before the step, it leads to the same version, to a redirect that came in its place, or to a dead slot. So they are looked at
too after each line of the small script and of each worked script, with memory.
"""
import os
import re
import subprocess
import sys
import tempfile
import time
from typing import Dict, Iterable, Iterator, List, NamedTuple, Optional, Tuple

HERE = os.path.dirname(os.path.abspath(__file__))
sys.path[:0] = [os.path.join(os.path.dirname(HERE), folder) for folder in ("cuts", "pages", "scripts")]

import page_format  # noqa: E402
import tables  # noqa: E402
import worked  # noqa: E402
from test_cuts import whole_answers  # noqa: E402

NO_MEMORY = "error 16 NoMemory\n"
LEAST, MOST = -(2**63), 2**63 - 1
# a value and a key that no narrow index can have
WIDE = 2**40
INDEXES, READER = 5, 63
THREADS_PAGES = 4
# The steps that may grow something (docs/rules.md, Refusals): each script has each of them refused, and no other may be.
GROWING = {"begin", "createindex", "delete", "insert", "next", "openheap", "openindex", "openkeys", "savepoint", "takepage", "update"}
# the session by which worker 0 reads; each further worker has the next one
WORKERS_READER = 32
# The main thread asks for some thirty pieces while it begins eight workers. So a step's piece may come so much earlier or later in
# another run, in which all are tried, the nearest first; and so often by so many workers, until the step is refused anew.
NEAR, ROUNDS = sorted(range(-30, 31), key=abs), {1: 30, 2: 1}


class End(NamedTuple):
    status: int
    output: str
    errors: str


class Shell:
    """The program, of whose calls for memory one may be refused, and the judge of its answers."""

    def __init__(self, heapsh: str, heapjudge: str, room: str) -> None:
        self.heapsh, self.library, self.counted = heapsh, f"{room}/refusing.so", f"{room}/counted"
        self.heapjudge = heapjudge
        compiler = os.environ.get("CC", "cc")
        flags = ["-O2", "-Wall", "-Wextra", "-Werror", "-shared", "-fPIC"]
        subprocess.run([compiler, *flags, f"{HERE}/refusing.c", "-o", self.library], check=True)

    def run(self, word: str, lines: List[str], refused: int = -1) -> End:
        return self.run_on(word, "".join(f"{line}\n" for line in lines).encode(), refused)

    def run_on(self, word: str, data: bytes, refused: int = -1) -> End:
        with open(self.counted, "wb") as file:
            file.write(bytes(8))
        told = {"LD_PRELOAD": self.library, "REFUSED": str(refused), "COUNTED": self.counted}
        # of a file each read is whole, so that the program asks for the same pieces each time
        with tempfile.TemporaryFile() as given:
            given.write(data)
            given.seek(0)
            env = {**os.environ, **told}
            ran = subprocess.run([self.heapsh, word], stdin=given, capture_output=True, env=env, check=False, timeout=60)
        return End(ran.returncode, ran.stdout.decode(), ran.stderr.decode())

    def pieces(self, word: str, lines: List[str]) -> Tuple[int, End]:
        """How many pieces of memory are asked for where none is refused, and how that ends."""
        end = self.run(word, lines)
        return self.asked_for(), end

    def judge(self, heading: str, answered: Iterable[Tuple[str, str]]) -> None:
        """The history allows these answers to these lines of a script, on a table of its own."""
        transcript = "".join([f"{heading}\n", *(f"> {line}\n{answer}" for line, answer in answered)])
        ran = subprocess.run([self.heapjudge], input=transcript, capture_output=True, text=True, check=False, timeout=60)
        assert ran.returncode == 0, f"heapjudge: {ran.stdout}{ran.stderr}"

    def asked_for(self) -> int:
        """How many pieces of memory the last run has asked for."""
        with open(self.counted, "rb") as file:
            return int.from_bytes(file.read(), sys.byteorder)


def reads(pages: int, reader: int) -> List[str]:
    """Lines by which a session reads all rows, by the heap and by each index."""
    lines = [f"begin {reader}", f"openheap {reader}", *[f"next {reader} 0"] * pages, f"close {reader}"]
    for index in range(INDEXES):
        lines += [f"openindex {reader} {index} {LEAST} {MOST}", f"next {reader} 65535", f"close {reader}"]
    return [*lines, f"abort {reader}"]


def looks(pages: int, reader: int = READER) -> List[str]:
    """Lines that show what the engine holds, and its rows by the heap and by each index, and change nothing."""
    entries = [f"entries {index}" for index in range(INDEXES)]
    return ["ids", *(f"page {page}" for page in range(pages)), *entries, *reads(pages, reader)]


Row = Tuple[int, ...]  # its key and columns


class Rows(NamedTuple):
    heap: List[Row]
    by_index: List[Optional[List[Row]]]  # none of an index that is not in use, or too young


class Seen(NamedTuple):
    slots: Dict[Tuple[int, int], List[str]]  # the words behind the number of each slot
    entries: List[List[Tuple[int, int, int, int]]]  # value, key, page and slot of each entry, by index
    rows: Rows


def rows_read(answers: List[str], pages: int) -> Rows:
    """The rows in the answers to a session's reads."""
    opened = answers[3 + pages : 3 + pages + 3 * INDEXES]
    by_index = [rows_in(opened[at + 1]) if opened[at] == "ok\n" else None for at in range(0, 3 * INDEXES, 3)]
    return Rows([row for answer in answers[2 : 2 + pages] for row in rows_in(answer)], by_index)


def seen_in(answers: List[str], pages: int) -> Seen:
    """What the answers to such lines say."""
    slots: Dict[Tuple[int, int], List[str]] = {}
    for page, answer in enumerate(answers[1 : 1 + pages]):
        for line in answer.splitlines()[1:]:
            number, *words = line.split()
            slots[page, int(number)] = words
    entries = []
    for answer in answers[1 + pages : 1 + pages + INDEXES]:
        told = [tuple(map(int, line.split()[1:])) for line in answer.splitlines()[1:]]
        entries.append([(value, key, page, slot) for value, key, page, slot in told])
    return Seen(slots, entries, rows_read(answers[1 + pages + INDEXES :], pages))


def rows_in(answer: str) -> List[Row]:
    return [tuple(map(int, line.split()[1:6])) for line in answer.splitlines()[1:]]


def check_rows(rows: Rows) -> None:
    """Each index leads to the rows that the heap has, in the order of their values and keys."""
    for index, found in enumerate(rows.by_index):
        if found is not None:
            assert sorted(found) == sorted(rows.heap), f"index {index} leads to other rows than the heap has"
            values = [(row[index], row[0]) for row in found]
            assert values == sorted(values), f"the rows by index {index} are in another order"


def check_entries(seen: Seen, indexed: str) -> None:
    """The law of entries, of one state, and that each index leads to the rows that the heap has."""
    check_rows(seen.rows)
    for index, entries in enumerate(seen.entries):
        places = [entry[2:] for entry in entries]
        assert len(set(places)) == len(places), f"two entries of index {index} lead to one slot"
        for _, key, page, slot in entries:
            words = seen.slots[page, slot]
            if words[0] == "redirect":
                words = seen.slots[page, int(words[1])]
                assert words[0] == "normal", f"slot {slot} of page {page} leads to {words}"
            assert words[0] == "dead" or words[0] == "normal" and int(words[3]) == key, f"an entry of key {key} leads to {words}"
        if index == 0 or indexed[index - 1] == "1":
            redirects = {place for place, words in seen.slots.items() if words[0] == "redirect"}
            assert redirects <= set(places), f"index {index} has no entry for a redirect"
        values = {(row[index], row[0]) for row in seen.rows.by_index[index] or []}
        assert values <= {entry[:2] for entry in entries}, f"index {index} has other values"


def check_targets(before: Seen, after: Seen) -> None:
    """No entry that stayed leads to a slot of another row."""
    for old, new in zip(before.entries, after.entries):
        for _, _, page, slot in set(old) & set(new):
            was, now = before.slots[page, slot], after.slots[page, slot]
            same = now[0] == "normal" and was[0] == "normal" and (was[1], was[3]) == (now[1], now[3])
            comes_after = {"normal": ("redirect", "dead"), "redirect": ("redirect", "dead"), "dead": ("dead",)}[was[0]]
            assert same or now[0] in comes_after, f"an entry to {was} leads to {now}"


class Run:
    """A script, each piece of whose memory is refused."""

    def __init__(self, shell: Shell, lines: List[str], pages: int) -> None:
        self.shell, self.lines, self.pages = shell, lines, pages
        self.count, self.end = shell.pieces("run", lines)
        assert self.end.status == 0 and NO_MEMORY not in self.end.output, f"with memory: {self.end}"
        self.answers = whole_answers(self.end.output)
        assert len(self.answers) == len(lines) - 1
        shell.judge(lines[0], zip(lines[1:], self.answers))
        self.kinds: Dict[str, int] = {}
        self.shell_refused = self.passed_over = 0
        self.expected: Dict[int, List[str]] = {}

    def expected_at(self, at: int) -> List[str]:
        """The answers where a look stands before and after this line, with memory."""
        if at not in self.expected:
            look = looks(self.pages)
            end = self.shell.run("run", [*self.lines[:at], *look, self.lines[at], *look, *self.lines[at + 1 :]])
            answers = whole_answers(end.output)
            before = seen_in(answers[at - 1 :][: len(look)], self.pages)
            after = seen_in(answers[at + len(look) :][: len(look)], self.pages)
            for seen in (before, after):
                check_entries(seen, self.lines[0].split()[6])
            check_targets(before, after)
            self.expected[at] = answers
        return self.expected[at]

    def refuse(self, piece: int) -> None:
        end = self.shell.run("run", self.lines, piece)
        if end.status == 3:
            assert end.errors == "no memory\n" and self.end.output.startswith(end.output), f"piece {piece}: {end}"
            self.shell_refused += 1
            return
        assert end.status == 0 and not end.errors, f"piece {piece}: {end}"
        answers = whole_answers(end.output)
        if NO_MEMORY not in answers:
            assert end == self.end, f"piece {piece} changes an answer, and none says that memory was refused"
            self.passed_over += 1
            return
        at = answers.index(NO_MEMORY) + 1
        line, look = self.lines[at], looks(self.pages)
        end = self.shell.run("run", [*self.lines[:at], line, *look, line, *look, *self.lines[at + 1 :]], piece)
        answers, wanted = whole_answers(end.output), self.expected_at(at)
        assert end.status == 0 and answers == [*wanted[: at - 1], NO_MEMORY, *wanted[at - 1 :]], f"piece {piece}, in line {at + 1}, {line}"
        kind = line.split()[0]
        assert kind in GROWING, f"piece {piece}: {line} is refused memory, and grows nothing"
        self.kinds[kind] = self.kinds.get(kind, 0) + 1

    def refuse_in_turn(self) -> str:
        """Refuses each piece, and says what came of it."""
        for piece in range(self.count):
            self.refuse(piece)
        never = GROWING - self.kinds.keys()
        assert not never, f"never refused memory: {', '.join(sorted(never))}"
        kinds = ", ".join(f"{kind} {count}" for kind, count in sorted(self.kinds.items()))
        return (
            f"{self.count} pieces, of {len(self.lines)} lines: {self.shell_refused} end the shell, {self.passed_over} are done"
            f" without, and refused are {kinds}"
        )


def row(session: int, word: str, key: int, value: int, body: str = "-") -> str:
    return f"{word} {session} {key} {value} {key % 3} {-value} {value // 10} {body}"


def savepoints(session: int, count: int) -> Iterator[str]:
    """So many savepoints, with a write in some of them, and a way back through half of them."""
    for level in range(count):
        yield f"savepoint {session}"
        if level % 4 < 3:
            yield row(session, "update", level % 5, 100 + level) if level % 4 else f"delete {session} {level % 5}"
    for level in range(count // 2):
        if level % 3 == 0:
            yield f"rollbackto {session}"
        yield f"release {session}"


def cursors(session: int) -> Iterator[str]:
    openings = [f"openheap {session}", f"openindex {session} 0 0 {MOST}", f"openindex {session} 1 {LEAST} {MOST}"]
    for opening in [*openings, f"openkeys {session} 0 {MOST}"]:
        yield from (opening, f"next {session} 2", f"next {session} 0", f"next {session} 300", f"close {session}")
    yield from (f"takepage {session} 0", f"takepage {session} 1", f"takepage {session} 0")


def vacuum(mode: str) -> Iterator[str]:
    """A vacuum that is broken off, and one beside which a row is inserted."""
    yield from (f"vacuum begin {mode}", "vacuum step", "vacuum cancel", f"vacuum begin {mode}", "vacuum step")
    yield from ("begin 50", row(50, "insert", 5000 + len(mode), 1), "commit 50", "vacuum step", "vacuum finish")


def many_sessions(first: int, end: int) -> Iterator[str]:
    """So many sessions with an id each, of which every fifth has a child."""
    for session in range(first, end):
        yield f"{'begin' if session % 2 else 'beginrc'} {session}"
        yield row(session, "insert", 1000 + session, session)
        if session % 5 == 0:
            yield from (f"savepoint {session}", row(session, "insert", 2000 + session, session))


def all_steps(rows: int, sessions: int) -> List[str]:
    """A script with each kind of step, on so many rows and besides by so many sessions at once."""
    lines = ["heap 64 100000 0 3 4 1000", "begin 0"]
    lines += [row(0, "insert", key, key * 7 % 50, "6162" if key % 9 == 0 else "-") for key in range(rows)]
    lines += ["commit 0", "begin 1", "begin 2", "openheap 2"]
    for key in range(0, rows, 2):
        lines += ["begin 0", row(0, "update", key, key * 7 % 50 + key % 4), "commit 0" if key % 8 else "abort 0", "prune 0"]
    lines += ["begin 0", *(f"delete 0 {key}" for key in range(5, rows, 5)), "commit 0", "createindex 1"]
    lines += ["begin 0", row(0, "update", 1, WIDE), "commit 0", "createindex 2", "createindex 0"]
    lines += many_sessions(10, 10 + sessions)
    lines += ["begin 3", "beginrc 4", *cursors(3), *cursors(4), "beginrc 5", *savepoints(5, 32)]
    lines += ["get 1 2", "apply 0 0 r1:2 u3 d5", *vacuum("normal")]
    lines += [f"{'commit' if session % 3 else 'abort'} {session}" for session in range(10, 10 + sessions)]
    lines += ["commit 5", "next 2 0", "abort 2", "begin 0", row(0, "insert", WIDE, 3), "commit 0"]
    return [*lines, "prune 1", "commit 1", "abort 4", "abort 3", *vacuum("aggressive")]


def for_worker(worker: int, turn: int) -> Iterator[str]:
    """Each kind of step of a session, by a worker who has rows of its own; all have key 1."""
    first = 100 * worker + 10 * turn + 2
    yield f"beginrc {worker}" if turn % 2 else f"begin {worker}"
    yield from (row(worker, "insert", key, turn, "61") for key in (1, first, first + 1, first + 2, first + 3))
    yield from (f"savepoint {worker}", row(worker, "update", first, 7), f"delete {worker} {first + 1}", f"rollbackto {worker}")
    yield from (row(worker, "update", first + 2, 8), f"delete {worker} {first + 3}", f"release {worker}", f"get {worker} {first}")
    openings = ["openheap {0}", f"openindex {{0}} 0 0 {MOST}", f"openindex {{0}} 1 {LEAST} {MOST}", f"openkeys {{0}} 0 {MOST}"]
    for opening in openings:
        yield from (opening.format(worker), f"next {worker} 0", f"close {worker}")
    yield f"takepage {worker} 0"
    yield f"abort {worker}" if turn == 1 else f"commit {worker}"


def of_no_session(turn: int) -> List[str]:
    """The steps that are no session's."""
    steps = ["prune 0", "apply 0 0 u1", "vacuum begin aggressive", "vacuum step", "vacuum cancel"]
    return [*steps, "vacuum begin normal", *["vacuum step"] * 4, f"createindex {turn}"]


def for_threads(workers: int) -> List[str]:
    """A script for threads. A worker has a session of its own, the first has the steps that are no session's besides."""
    lines = [f"heap {THREADS_PAGES} 100000 0 3 4 1000"]
    for turn in range(3):
        for worker in range(workers):
            lines += [f"@{worker} {step}" for step in for_worker(worker, turn)]
        lines += [f"@0 {step}" for step in of_no_session(turn)]
    return lines


def worker_of(step: str) -> int:
    """The worker whose step it is, as `for_threads` gives them out."""
    word, first = step.split()[:2]
    return 0 if word in ("prune", "apply", "vacuum", "createindex") else int(first) % WORKERS_READER


class Journal:
    """The steps that threads have done, each with its answer."""

    def __init__(self, end: End) -> None:
        self.entries: List[Tuple[str, str]] = re.findall(r"^> (.*)\n((?:(?!> ).*\n)*)", end.output, re.M)
        refused = [at for at, (_, answer) in enumerate(self.entries) if answer == NO_MEMORY]
        assert len(refused) <= 1, f"two steps are refused: {end}"
        self.refused = refused[0] if refused else None

    def of(self, worker: int) -> List[int]:
        """The places of a worker's entries."""
        return [at for at, (step, _) in enumerate(self.entries) if worker_of(step) == worker]

    def refused_line(self, lines: List[str]) -> Optional[int]:
        """The place among the lines of the step that was refused."""
        if self.refused is None:
            return None
        worker = worker_of(self.entries[self.refused][0])
        mine = [at for at, line in enumerate(lines) if line.startswith(f"@{worker} ")]
        return mine[self.of(worker).index(self.refused)]


class Threads:
    """A script for threads, each piece of whose memory is refused."""

    def __init__(self, shell: Shell, workers: int) -> None:
        self.shell, self.workers, self.lines = shell, workers, for_threads(workers)
        self.count, end = shell.pieces("threads", self.lines)
        assert end.status == 0 and NO_MEMORY not in end.output, f"with memory: {end}"
        self.check(self.lines, Journal(end))
        self.to_read = self.pieces_to_read(self.lines)

    def check(self, lines: List[str], journal: Journal) -> None:
        """Each worker's lines stand in their order, and the judge allows the journal. Without a step that was refused memory, a run answers the
        others alike, and shows entries as they have to be where it was refused, and at the end."""
        self.shell.judge(lines[0], journal.entries)
        for worker in range(self.workers):
            mine = [line.split(" ", 1)[1] for line in lines[1:] if line.startswith(f"@{worker} ")]
            assert [journal.entries[at][0] for at in journal.of(worker)] == mine, f"the lines of worker {worker}"
        kept = [entry for entry in journal.entries if entry[1] != NO_MEMORY]
        at, look = len(kept) if journal.refused is None else journal.refused, looks(THREADS_PAGES)
        steps = [step for step, _ in kept]
        end = self.shell.run("run", [lines[0], *steps[:at], *look, *steps[at:], *look])
        answers = whole_answers(end.output)
        shown, last = answers[at:][: len(look)], answers[len(answers) - len(look) :]
        answered = answers[:at] + answers[at + len(look) : len(answers) - len(look)]
        assert end.status == 0 and answered == [answer for _, answer in kept], "a run answers otherwise"
        for seen in (shown, last):
            check_entries(seen_in(seen, THREADS_PAGES), lines[0].split()[6])

    def refuse(self, lines: List[str], piece: int) -> Optional[Journal]:
        """What is done where this piece is refused; nothing where the shell ends for want of memory."""
        end = self.shell.run("threads", lines, piece)
        if end.status == 3:
            assert end.errors == "no memory\n" and NO_MEMORY not in end.output, f"piece {piece}: {end}"
            return None
        assert end.status == 0 and not end.errors, f"piece {piece}: {end}"
        journal = Journal(end)
        self.check(lines, journal)
        return journal

    def pieces_to_read(self, lines: List[str]) -> int:
        """How many pieces are asked for to read the lines: behind them comes a bad one, so that none is done."""
        end = self.shell.run("threads", [*lines, "bad"])
        assert end == End(1, "", f"bad line {len(lines) + 1}\n"), f"a bad line is behind: {end}"
        return self.shell.asked_for()

    def ask_again(self, piece: int, at: int) -> bool:
        """Asks twice for the step that was refused, has its worker read all rows behind it, and refuses its piece, or one near it, until it
        is that step which is refused. Says whether it came to that."""
        step, worker = self.lines[at], int(self.lines[at][1])
        look = [f"@{worker} {line}" for line in reads(THREADS_PAGES, WORKERS_READER + worker)]
        lines = [*self.lines[: at + 1], step, *look, *self.lines[at + 1 :]]
        # all lines are read before any is done
        piece += self.pieces_to_read(lines) - self.to_read
        for near in ROUNDS[self.workers] * NEAR:
            journal = self.refuse(lines, piece + near)
            if journal is not None and journal.refused_line(lines) == at:
                mine = journal.of(worker)
                behind = mine[mine.index(journal.refused) + 2 :][: len(look)]
                check_rows(rows_read([journal.entries[place][1] for place in behind], THREADS_PAGES))
                return True
        return False

    def refuse_in_turn(self) -> str:
        """Refuses each piece, and says what came of it."""
        ended = refused = repeated = 0
        for piece in range(self.count):
            journal = self.refuse(self.lines, piece)
            at = journal.refused_line(self.lines) if journal else None
            ended += journal is None
            if at is not None:
                step = self.lines[at].split()[1]
                assert step in GROWING, f"piece {piece}: {self.lines[at]} is refused memory, and grows nothing"
                refused, repeated = refused + 1, repeated + self.ask_again(piece, at)
        assert 0 < repeated and (repeated == refused or self.workers > 1), f"{refused} steps are refused, {repeated} asked for again"
        again = f"{refused} steps are refused, {repeated} of them asked for again"
        return f"{self.workers} threads: {self.count} pieces, of {len(self.lines)} lines: {ended} end the shell, and {again}"


def refuse_page(shell: Shell, page: bytes, told: str) -> str:
    """Refuses each piece that the look into a page asks for: the shell ends for want of memory, after a beginning of what it tells."""
    whole = shell.run_on("inspect", page)
    count = shell.asked_for()
    assert whole == End(0, told, "") and count > 0, f"with memory: {whole}"
    ended = 0
    for piece in range(count):
        end = shell.run_on("inspect", page, piece)
        is_ended = end.status == 3 and end.errors == "no memory\n" and whole.output.startswith(end.output)
        assert is_ended or end == whole, f"piece {piece}: {end}"
        ended += is_ended
    assert ended > 0, "a look into a page is never refused memory"
    return f"inspect: {count} pieces, of which {ended} end the shell"


def look_after_each_line(shell: Shell, lines: Iterable[str]) -> int:
    """Looks at the entries after each line of a script, which is answered as it is without, and says how often it has looked."""
    heading, *steps = lines
    pages, used = int(heading.split()[1]), {word for step in steps for word in step.split()[1:2]}
    reader = next(session for session in range(READER, -1, -1) if str(session) not in used)
    look = looks(pages, reader)
    end = shell.run("run", [heading, *look, *(line for step in steps for line in (step, *look))])
    assert end.status == 0, f"with looks: {end.errors}"
    answers, at, before = whole_answers(end.output), len(look), None
    seen = seen_in(answers[:at], pages)
    indexed, kept = heading.split()[6], []
    for step in steps:
        kept.append(answers[at])
        before, seen = seen, seen_in(answers[at + 1 :][: len(look)], pages)
        at += 1 + len(look)
        check_entries(seen, indexed)
        check_targets(before, seen)
    assert at == len(answers)
    assert "".join(kept) == shell.run("run", [heading, *steps]).output, "looks change an answer"
    return len(steps)


def main() -> None:
    heapsh, heapjudge = map(os.path.abspath, sys.argv[1:3])
    began = time.monotonic()
    with tempfile.TemporaryDirectory() as room:
        shell = Shell(heapsh, heapjudge, room)
        for lines, pages in ((all_steps(12, 12), 3), (all_steps(1500, 40), 40)):
            print(f"test_refused.py: {Run(shell, lines, pages).refuse_in_turn()}")
        for workers in (1, 2):
            print(f"test_refused.py: {Threads(shell, workers).refuse_in_turn()}")
        print(f"test_refused.py: {refuse_page(shell, page_format.SIX_SLOTS, tables.TOLD_OF_SIX_SLOTS)}")
        scripts = [case.text.decode().splitlines() for case in worked.cases() if case.status == 0]
        looked = [look_after_each_line(shell, lines) for lines in (all_steps(12, 12), *scripts)]
        print(f"test_refused.py: the entries are right after each of {sum(looked)} lines of {len(looked)} scripts")
    print(f"test_refused.py: all as it has to be, in {time.monotonic() - began:.0f} seconds")


if __name__ == "__main__":
    main()
