#!/usr/bin/env python3
"""Runs scripts by the program, and compares what it writes and how it ends with what is written beside them: test_scripts.py HEAPSH

These are the worked scripts (worked.py), scripts that loops make (made_scripts.py), and the ends of what is allowed with what lies beyond
(lines.txt, tables.py): lines, first lines, words of the command line, scripts for threads (workers.txt) and pages for `inspect`.

Of one script, one for threads and one page a read fails after each number of bytes, and so does a write, by failing.c: what was written
by then stays, and a fault ends it. Reads and writes that carry little, or are interrupted, change nothing. Lines that are asked one by
one are each answered before the next one is there (prompts.txt).
"""
import functools
import itertools
import os
import re
import select
import subprocess
import sys
import tempfile
import time
from multiprocessing import Pool
from typing import Dict, Iterator, List, NamedTuple, Optional, Tuple

HERE = os.path.dirname(os.path.abspath(__file__))
sys.path.insert(0, os.path.join(os.path.dirname(HERE), "pages"))

import made_scripts  # noqa: E402
import page_format  # noqa: E402
import tables  # noqa: E402
import worked  # noqa: E402
from worked import Case  # noqa: E402

HEADING = "heap 4 1000 0 3 64 0000\n"
USAGE = "usage: heapsh run|threads|inspect\n"
# how long the program may take, to an answer or to its end
SECONDS = 60
# the worked script of which reads and writes fail; each of its answers is one line
FAILING = "older_session_keeps_its_view"


class End(NamedTuple):
    status: int
    output: str
    errors: str


class Run(NamedTuple):
    """What the program is given, and how it has to end: in one of these ways."""

    name: str
    words: Tuple[str, ...]
    given: bytes
    ends: Tuple[End, ...]
    calls: Dict[str, str] = {}  # what failing.c is told, if anything


class Calls(NamedTuple):
    """How calls go, as failing.c says."""

    piece: int
    interruptions: int = 0
    end: int = -1

    def __str__(self) -> str:
        return f"{self.piece} {self.interruptions} {self.end}"


def told(reads: Calls, writes: Calls) -> Dict[str, str]:
    return {"READS": str(reads), "WRITES": str(writes)}


ALL_AT_ONCE = Calls(1 << 20)
BY_BYTES = Calls(1)


def run_of(case: Case, word: str = "run") -> Run:
    errors = f"{case.words}\n" if case.words else ""
    return Run(case.name, (word,), case.text, (End(case.status, "".join(case.answers), errors),))


def bad_line(given: bytes, number: int, output: str, word: str = "run") -> Run:
    return Run(f"{word} of {given!r}", (word,), given, (End(1, output, f"bad line {number}\n"),))


def worked_scripts() -> Iterator[Run]:
    return map(run_of, worked.cases())


def made_by_loops() -> Iterator[Run]:
    for cases in (made_scripts.leaves, made_scripts.circle, made_scripts.broken_off):
        yield from map(run_of, cases())


def allowed_lines() -> Iterator[Run]:
    """The scripts of lines.txt, each behind the lines that all of them have."""
    with open(f"{HERE}/lines.txt", encoding="utf-8") as file:
        groups = re.sub(r"^#.*\n", "", file.read(), flags=re.M).strip("\n").split("\n\n")
    for group in groups:
        pairs = [("begin 0", "ok\n"), *worked.beside(group.split("\n"))]
        assert all(answer for _, answer in pairs), f"lines.txt has no answer beside a line: {group}"
        text = HEADING + "".join(f"{line}\n" for line, _ in pairs)
        name = "; ".join(line for line, _ in pairs)
        yield run_of(Case(name, text.encode(), [answer for _, answer in pairs]))


def bad_lines() -> Iterator[Run]:
    for line in tables.BAD_LINES:
        yield bad_line(f"{HEADING}begin 0\n".encode() + line + b"\n", 3, "ok\n")


def long_lines() -> Iterator[Run]:
    for start, body, length, answer in tables.LONG_LINES:
        line = start + b"ab" * body
        assert len(line) == length, f"a long line has {len(line)} bytes, and not {length}"
        end = End(0, f"ok\n{answer}", "") if answer else End(1, "ok\n", "bad line 3\n")
        yield Run(f"a line of {length} bytes", ("run",), f"{HEADING}begin 0\n".encode() + line + b"\n", (end,))


def first_lines() -> Iterator[Run]:
    for text in tables.ALLOWED_HEADINGS:
        yield Run(f"run of {text!r}", ("run",), text, (End(0, "", ""),))
    for text in tables.BAD_HEADINGS:
        yield bad_line(text, 1, "")


def command_lines() -> Iterator[Run]:
    """What is asked for is told by how a script for threads ends that it is given."""
    ends = {
        "run": End(1, "", "bad line 2\n"),
        "threads": End(0, "> begin 0\nok\n", ""),
        "inspect": End(1, "", "bad page Length\n"),
        "": End(1, "", USAGE),
    }
    for words, asked in tables.COMMANDS:
        yield Run(f"the words {words}", words, f"{HEADING}@0 begin 0\n".encode(), (ends[asked],))


def journal_of(case: Case) -> Case:
    """The script of one worker, answered by its journal."""
    steps = [re.sub(r"^@[0-7] (wait )?", "", line) for line in case.text.decode().splitlines()[1:]]
    return case._replace(answers=[f"> {step}\n{answer}" for step, answer in zip(steps, case.answers)])


def one_worker() -> List[Case]:
    return [journal_of(case) for case in worked.cases_in(f"{HERE}/workers.txt")]


def scripts_for_threads() -> Iterator[Run]:
    for case in one_worker():
        yield run_of(case, "threads")
    steps = ["> begin 0\nok\n", "> begin 1\nok\n"]
    ends = tuple(End(0, "".join(order), "") for order in (steps, steps[::-1]))
    yield Run("two workers, in either order", ("threads",), f"{HEADING}@0 begin 0\n@7 begin 1\n".encode(), ends)
    for text, number in tables.BAD_WORKERS:
        yield bad_line(text, number, "", "threads")


def one_row() -> Run:
    return Run("the page of one row", ("inspect",), page_format.VECTOR, (End(0, tables.TOLD_OF_ONE_ROW, ""),))


def six_slots() -> Iterator[Run]:
    """The page with a slot of each kind, as it is and with other bytes in some places."""
    for changes in ({}, tables.OTHERS_OF_SIX_SLOTS):
        page, words = bytearray(page_format.SIX_SLOTS), tables.TOLD_OF_SIX_SLOTS
        for place, (byte, said, instead) in changes.items():
            assert words.count(said) == 1, f"{said} is not told once"
            page[place], words = byte, words.replace(said, instead)
        yield Run(f"the page of six slots, {len(changes)} bytes changed", ("inspect",), bytes(page), (End(0, words, ""),))


def pages() -> Iterator[Run]:
    yield one_row()
    yield from six_slots()
    for changes, size, words in tables.BAD_PAGES:
        page = bytearray(page_format.VECTOR + b"\0")
        for place, part in changes.items():
            page[place : place + len(part)] = part
        yield Run(f"{words}, {size} bytes", ("inspect",), bytes(page[:size]), (End(1, "", f"{words}\n"),))


def that_fail() -> List[Run]:
    """The runs of which reads fail, and writes: of a script, of one for threads, and of a page."""
    script = next(case for case in worked.cases() if case.name == FAILING)
    return [run_of(script), run_of(one_worker()[0], "threads"), one_row()]


def small_calls() -> Iterator[Run]:
    for run in [*that_fail(), *(run_of(case, "threads") for case in one_worker()[1:])]:
        for interruptions in (0, 1):
            calls = Calls(1, interruptions)
            yield run._replace(name=f"{run.name}, {calls}", calls=told(calls, calls))


def answered_by(run: Run, count: int) -> str:
    """What is written where so many bytes are read: a script's lines are answered at once, the first by nothing."""
    if run.words != ("run",):
        return ""
    lines = run.given.count(b"\n", 0, count)
    return "".join(run.ends[0].output.splitlines(keepends=True)[: max(lines - 1, 0)])


def failing_reads() -> Iterator[Run]:
    """After each number of bytes, and after all of them, where a read asks whether there are more.

    Of a page a read carries 64 bytes up to there: by single ones these 8193 runs would take two minutes of a processor."""
    for run in that_fail():
        piece = 64 if run.words == ("inspect",) else 1
        for count in range(len(run.given) + 1):
            end = End(2, answered_by(run, count), "input fault\n")
            calls = told(Calls(piece, 0, count), BY_BYTES)
            yield run._replace(name=f"{run.name}, a read fails after {count} bytes", ends=(end,), calls=calls)


def failing_writes() -> Iterator[Run]:
    for run in that_fail():
        output = run.ends[0].output
        for count in range(len(output)):
            end = End(2, output[:count], "output fault\n")
            calls = told(ALL_AT_ONCE, Calls(1, 0, count))
            yield run._replace(name=f"{run.name}, a write fails after {count} bytes", ends=(end,), calls=calls)


SUBJECTS = {
    "worked scripts": worked_scripts,
    "scripts made by loops": made_by_loops,
    "allowed lines": allowed_lines,
    "bad lines": bad_lines,
    "long lines": long_lines,
    "first lines": first_lines,
    "command lines": command_lines,
    "scripts for threads": scripts_for_threads,
    "pages": pages,
    "runs by calls of one byte": small_calls,
    "reads that fail": failing_reads,
    "writes that fail": failing_writes,
}


class Program(NamedTuple):
    heapsh: str
    library: str  # of failing.c

    def environment(self, calls: Dict[str, str]) -> Dict[str, str]:
        return {**os.environ, "LD_PRELOAD": self.library, **calls} if calls else dict(os.environ)


def difference(end: End, wanted: End) -> str:
    """The first line that is written otherwise, and how it ends where it ends otherwise."""
    lines = itertools.zip_longest(end.output.splitlines(), wanted.output.splitlines())
    others = [f"line {number} is {here!r}, and not {there!r}" for number, (here, there) in enumerate(lines, 1) if here != there]
    said = others[:1]
    if end[::2] != wanted[::2]:
        said.append(f"it ends with {end.status}, {end.errors!r}, and not with {wanted.status}, {wanted.errors!r}")
    return "; ".join(said) or "a line feed is missing, or is too much"


def try_run(program: Program, run: Run) -> Optional[str]:
    """How the program ends otherwise, if it does."""
    command, env = [program.heapsh, *run.words], program.environment(run.calls)
    try:
        ran = subprocess.run(command, input=run.given, capture_output=True, env=env, check=False, timeout=SECONDS)
    except subprocess.TimeoutExpired:
        return f"{run.name}: it has no end"
    end = End(ran.returncode, ran.stdout.decode(), ran.stderr.decode())
    return None if end in run.ends else f"{run.name}: {difference(end, run.ends[0])}"


def lines_written(output: int) -> Iterator[str]:
    """The lines that come from a pipe, until none comes any more."""
    held = b""
    while select.select([output], [], [], SECONDS)[0]:
        part = os.read(output, 4096)
        *lines, held = (held + part).split(b"\n")
        yield from (f"{line.decode()}\n" for line in lines)
        if not part:
            break
    if held:
        yield held.decode()


def give(program: "subprocess.Popen[bytes]", line: bytes) -> None:
    try:
        program.stdin.write(line)
    except BrokenPipeError:
        pass  # it has ended, and so will answer nothing


def ask_line_by_line(program: Program, case: Case, calls: Calls) -> None:
    """Each line is given when the one before it is answered. Who would read more before that answer finds nothing to read."""
    heading, *lines = case.text.splitlines(keepends=True)
    command, env, pipe = [program.heapsh, "run"], program.environment(told(calls, calls)), subprocess.PIPE
    with subprocess.Popen(command, stdin=pipe, stdout=pipe, stderr=pipe, bufsize=0, env=env) as ran:
        try:
            written = lines_written(ran.stdout.fileno())
            give(ran, heading)
            for line, answer in zip(lines, case.answers):
                give(ran, line)
                said = next(written, None)
                assert said == answer, f"{case.name}, {calls}: {line!r} is answered {said!r}, and not {answer!r}"
            ran.stdin.close()
            end = End(ran.wait(SECONDS), "".join(written), ran.stderr.read().decode())
        finally:
            ran.kill()
    assert end == End(0, "", ""), f"{case.name}, {calls}: {end} behind the answers"


def try_prompts(program: Program) -> int:
    """By pieces of 1 to 29 bytes, and with 1 to 4 interruptions before each call that goes through."""
    (case,) = worked.cases_in(f"{HERE}/prompts.txt")
    ways = [*(Calls(piece) for piece in range(1, 30)), *(Calls(9, interruptions) for interruptions in range(1, 5))]
    for calls in ways:
        ask_line_by_line(program, case, calls)
    return len(ways)


def try_devices(program: Program) -> int:
    """A folder can't be read, and a device that is full takes nothing."""
    runs = that_fail()
    for run in runs:
        command, folder = [program.heapsh, *run.words], os.open(HERE, os.O_RDONLY)
        ran = subprocess.run(command, stdin=folder, capture_output=True, check=False, timeout=SECONDS)
        os.close(folder)
        assert (ran.returncode, ran.stdout, ran.stderr) == (2, b"", b"input fault\n"), f"{run.words} of a folder: {ran}"
        with open("/dev/full", "wb") as full:
            ran = subprocess.run(command, input=run.given, stdout=full, stderr=subprocess.PIPE, check=False, timeout=SECONDS)
        assert (ran.returncode, ran.stderr) == (2, b"output fault\n"), f"{run.words} to a full device: {ran}"
    return 2 * len(runs)


def compiled(room: str) -> str:
    library, compiler = f"{room}/failing.so", os.environ.get("CC", "cc")
    flags = ["-O2", "-Wall", "-Wextra", "-Werror", "-shared", "-fPIC"]
    subprocess.run([compiler, *flags, f"{HERE}/failing.c", "-o", library], check=True)
    return library


def main() -> None:
    began, counts = time.monotonic(), []
    with tempfile.TemporaryDirectory() as room, Pool() as pool:
        program = Program(os.path.abspath(sys.argv[1]), compiled(room))
        for subject, runs in SUBJECTS.items():
            tried = 0
            for wrong in pool.imap_unordered(functools.partial(try_run, program), runs(), chunksize=32):
                assert wrong is None, wrong
                tried += 1
            counts.append(f"{tried} {subject}")
        counts += [f"{try_prompts(program)} scripts asked line by line", f"{try_devices(program)} devices that fail"]
    print(f"test_scripts.py: {', '.join(counts)}: all as it has to be, in {time.monotonic() - began:.0f} seconds")


if __name__ == "__main__":
    main()
