"""Cuts scripts and two pages after each of their bytes, and has the program read what is left: test_cuts.py HEAPSH

The scripts are the worked ones, those that loops make (both of tests/scripts), and the examples but one, most of whose bytes are a body's.
Of a cut script the lines before the cut are answered as they are in the whole one. A cut inside line N makes that the bad line N. A cut
page is no page. Scripts are also cut as the lines of one worker, for `heapsh threads`: there nothing is written where a line is bad.
The answers of the whole are those beside the lines of the worked scripts, and those on the pages of the examples; what is told of a whole
page stands in the tables of tests/scripts.

The program begins anew for each cut, without being loaded anew: cutting.c copies it where it is about to begin.
"""
import functools
import glob
import os
import re
import subprocess
import sys
import tempfile
import time
from multiprocessing import Pool
from typing import IO, Iterable, Iterator, List, NamedTuple, Optional, Tuple

HERE = os.path.dirname(os.path.abspath(__file__))
ROOT = os.path.dirname(os.path.dirname(HERE))
sys.path[:0] = [os.path.join(ROOT, folder) for folder in ("examples", "tests/pages", "tests/scripts")]

import check  # noqa: E402
import made_scripts  # noqa: E402
import page_format  # noqa: E402
import tables  # noqa: E402
import worked  # noqa: E402

# A longer example has large bodies, and one cut within them is like another.
MOST_BYTES = 16384


class Script(NamedTuple):
    name: str
    text: bytes
    answers: List[str]
    bad_line: Optional[int]


class End(NamedTuple):
    status: int
    output: bytes
    errors: bytes


class Program(NamedTuple):
    heapsh: str
    library: str  # of cutting.c


def whole_answers(text: str) -> List[str]:
    """Answers, each with the lines that its first line announces."""
    lines, answers, at = text.splitlines(keepends=True), [], 0
    while at < len(lines):
        told = re.match(r"(?:rows|keys|entries \d+|page .* slots) (\d+)$", lines[at])
        count = 1 + int(told[1]) if told else 1
        answers.append("".join(lines[at : at + count]))
        at += count
    return answers


def script_of(case: worked.Case) -> Script:
    return Script(case.name, case.text, case.answers, worked.bad_line(case.words))


def worked_scripts() -> Iterator[Script]:
    return map(script_of, worked.cases())


def made_by_loops() -> Iterator[Script]:
    for cases in (made_scripts.leaves, made_scripts.circle, made_scripts.broken_off):
        yield from map(script_of, cases())


def examples() -> Iterator[Script]:
    for path in sorted(glob.glob(f"{ROOT}/examples/*.script")):
        with open(path, "rb") as file:
            text = file.read()
        if len(text) > MOST_BYTES:
            continue
        told = check.rows(path[: -len("script")] + "md")
        answers = "".join(f"{line}\n" for _, lines in told for line in lines)
        yield Script(os.path.basename(path), text, whole_answers(answers), None)


def for_threads(script: Script) -> Optional[Script]:
    """The same as the lines of one worker, whose journal has each line beside its answer; none where it has other lines."""
    heading, *lines = script.text.decode().splitlines()
    if script.bad_line is not None or any(re.match(r"ids|page|entries|vacuum finish", line) for line in lines):
        return None
    text = "".join(f"{line}\n" for line in [heading, *(f"@3 {line}" for line in lines)])
    return Script(script.name, text.encode(), [f"> {line}\n{answer}" for line, answer in zip(lines, script.answers)], None)


def ends_of_cuts(script: Script, word: str) -> Iterator[End]:
    """How the program has to end on all of the script's bytes, on one less, and so on."""
    answered = [b""]
    for answer in script.answers:
        answered.append(answered[-1] + answer.encode())
    for cut in range(len(script.text), -1, -1):
        lines = script.text.count(b"\n", 0, cut)
        is_torn = cut == 0 or script.text[cut - 1 : cut] != b"\n"
        bad = lines + 1 if is_torn else None
        if script.bad_line is not None and script.bad_line <= lines:
            bad, lines = script.bad_line, script.bad_line - 1
        output = b"" if bad and word == "threads" else answered[max(lines - 1, 0)]
        yield End(1, output, f"bad line {bad}\n".encode()) if bad else End(0, output, b"")


def ends_of_page(page: bytes, told: bytes) -> Iterator[End]:
    """The same of a page, of whom the whole is told so."""
    yield End(0, told, b"")
    for _ in page:
        yield End(1, b"", b"bad page Length\n")


def read_back(file: IO[bytes]) -> bytes:
    file.seek(0)
    return file.read()


def ends_on(program: Program, word: str, data: bytes) -> Iterator[End]:
    """How the program ends on all of the bytes, on one less, and so on."""
    with tempfile.TemporaryFile() as given, tempfile.TemporaryFile() as output, tempfile.TemporaryFile() as errors:
        with tempfile.NamedTemporaryFile("r") as ends:
            given.write(data)
            given.flush()
            env = {**os.environ, "LD_PRELOAD": program.library, "ENDS": ends.name}
            subprocess.run([program.heapsh, word], stdin=given, stdout=output, stderr=errors, env=env, check=True)
            wrote, said, at, told = read_back(output), read_back(errors), 0, 0
            for line in ends:
                status, end, words = map(int, line.split())
                yield End(status, wrote[at:end], said[told:words])
                at, told = end, words


def compare(name: str, ends: Iterable[End], wanted: Iterable[End]) -> int:
    """How many ends there are, which are those that are wanted."""
    ends, wanted = list(ends), list(wanted)
    assert len(ends) == len(wanted), f"{name}: {len(ends)} ends of {len(wanted)}"
    for cut, (end, other) in enumerate(zip(reversed(ends), reversed(wanted))):
        assert end == other, f"{name} cut after {cut} bytes: {end}, and not {other}"
    return len(ends)


def try_script(program: Program, word: str, script: Script) -> int:
    return compare(f"{word} of {script.name}", ends_on(program, word, script.text), ends_of_cuts(script, word))


def try_page(program: Program, page: Tuple[bytes, str]) -> int:
    whole, told = page
    return compare("a page", ends_on(program, "inspect", whole), ends_of_page(whole, told.encode()))


def compiled(room: str) -> str:
    library, compiler = f"{room}/cutting.so", os.environ.get("CC", "cc")
    flags = ["-O2", "-Wall", "-Wextra", "-Werror", "-shared", "-fPIC"]
    subprocess.run([compiler, *flags, f"{HERE}/cutting.c", "-o", library], check=True)
    return library


def main() -> None:
    began, scripts = time.monotonic(), [*worked_scripts(), *examples(), *made_by_loops()]
    workers = [script for script in map(for_threads, scripts) if script]
    pages = [(page_format.VECTOR, tables.TOLD_OF_ONE_ROW), (page_format.SIX_SLOTS, tables.TOLD_OF_SIX_SLOTS)]
    with tempfile.TemporaryDirectory() as room, Pool() as pool:
        program = Program(os.path.abspath(sys.argv[1]), compiled(room))
        cuts = sum(pool.imap_unordered(functools.partial(try_script, program, "run"), scripts))
        of_workers = sum(pool.imap_unordered(functools.partial(try_script, program, "threads"), workers))
        of_pages = sum(pool.imap_unordered(functools.partial(try_page, program), pages))
    print(
        f"test_cuts.py: {cuts} cuts of {len(scripts)} scripts, {of_workers} of {len(workers)} workers' and {of_pages} of {len(pages)}"
        f" pages end as they have to, in {time.monotonic() - began:.0f} seconds"
    )


if __name__ == "__main__":
    main()
