#!/usr/bin/env python3
"""Runs scripts with looks by heapview, and compares what it writes: test_looks.py HEAPVIEW

The twelve cases are compared to the letter, as a run and as a journal. Then come words, lines at the ends of what is allowed, and a talk.
Of random scripts each explanation is compared with what the session reads, and each fate with what a pruning then does (random_looks.py).
"""
import glob
import os
import re
import subprocess
import sys
from typing import Iterator, List, Tuple

HERE = os.path.dirname(os.path.abspath(__file__))
sys.path.insert(0, HERE)

import random_looks  # noqa: E402

HEAD = "heap 4 1000 0 3 64 0000\n"
# how many random scripts, how long each is, and how many explanations and fates they have at least
SCRIPTS, STEPS, LEAST = 140, 400, 200_000
# a line, and whether it is allowed
LINES = [
    ("explain 255 18446744073709551615", True), ("explain 256 1", False), ("explain 0 18446744073709551616", False), ("explain 0", False),
    ("explain 0 1 1", False), ("explain 0 01", False), ("explain 0  1", False), ("explain", False), ("explain 0 1 ", False), ("Explain 0 1", False),
    ("session 0", True), ("session 255", True), ("session 256", False), ("session 00", False), ("session", False), ("session 0 0", False),
    ("horizon", True), ("horizon ", False), ("horizon 0", False), ("horizons", False),
    ("fate 4294967295 65535", True), ("fate 0 0", True), ("fate 4294967296 1", False), ("fate 0 65536", False), ("fate 0", False), ("fate 0 -1", False),
    ("plan 0", True), ("plan 4294967295", True), ("plan 4294967296", False), ("plan +1", False), ("plan", False),
    ("vacuum", True), ("vacuum ", False), ("vacuum looks", False), ("vacuum\r", False), ("", False), ("help", False),
]


def ran(program: str, word: str, given: str) -> Tuple[int, str, str]:
    done = subprocess.run([program, word], input=given, capture_output=True, text=True, timeout=120, check=False)
    return done.returncode, done.stdout, done.stderr


def read(path: str) -> str:
    with open(path, encoding="utf-8") as file:
        return file.read()


def journal_of(lines: List[str], answers: str) -> Iterator[str]:
    """A journal without its answers: where the noted lines are left out, the answers of a run have to be left."""
    left = iter(lines)
    for line in answers.splitlines():
        if line.startswith("> "):
            if line[2:] != next(left, None):
                yield f"noted: {line}"
        else:
            yield line
    yield from (f"not noted: {line}" for line in left)


def cases(program: str) -> Iterator[str]:
    scripts = sorted(glob.glob(f"{HERE}/cases/*.script"))
    if len(scripts) != 12:
        yield f"{len(scripts)} cases in place of twelve"
    for path in scripts:
        given, expected = read(path), read(path[:-7] + ".expected")
        if ran(program, "run", given) != (0, expected, ""):
            yield f"{path}: other answers than expected"
        status, journal, errors = ran(program, "journal", given)
        if (status, errors) != (0, "") or list(journal_of(given.splitlines()[1:], journal)) != expected.splitlines():
            yield f"{path}: the journal has other lines or answers"


def lines(program: str) -> Iterator[str]:
    for line, is_allowed in LINES:
        for word in ("run", "journal"):
            status, _, errors = ran(program, word, f"{HEAD}{line}\nbegin 0\n")
            if (status, errors) != ((0, "") if is_allowed else (1, "bad line 2\n")):
                yield f"{word}: {line!r} ends with {status} {errors!r}"
    torn = ran(program, "run", HEAD + "horizon\nhorizon")
    if torn != (1, "horizon 3 next\n", "bad line 3\n"):
        yield f"a torn look: {torn}"
    unread = ran(program, "run", "heap 0 1000 0 3 64 0000\nhorizon\n")
    if unread != (1, "", "bad line 1\n"):
        yield f"settings out of range: {unread}"


def words(program: str) -> Iterator[str]:
    version = re.search(r'SANDPIPER_VERSION "(.*)"', read(f"{HERE}/../../include/sandpipercot.h"))
    assert version
    for word, status, stream, said in [
        ("--help", 0, 1, "journal"), ("--version", 0, 1, f"heapview {version[1]}\n"), ("fly", 1, 2, "'fly'"), ("--fly", 1, 2, "'--fly'"),
    ]:
        done = ran(program, word, "")
        if done[0] != status or said not in done[stream] or done[3 - stream]:
            yield f"heapview {word}: {done}"


def talk(program: str) -> Iterator[str]:
    given = f"bigin 0\n{HEAD}begin 0\ninsert 0 1\n{'x' * 5000}\ninsert 0 1 5 0 0 0 -\nexplain 0 1\nfoo\nhelp\nget 0 1\n"
    status, said, errors = ran(program, "talk", given)
    parts = said.split("> ")
    wanted = ["heap PAGES", "", "ok", "insert S K C0 C1 C2 C3 BODY", "4096 bytes", "ok", "version 0 1 seen maker 3 own deleter none", "help lists", "explain S K",
              "row 1 5 0 0 0 -", "\n"]
    if (status, errors) != (0, "") or len(parts) != len(wanted) + 1 or any(word not in part for word, part in zip(wanted, parts[1:])):
        yield f"a talk: {status} {errors!r}\n{said}"


def explained(program: str) -> Iterator[str]:
    told = random_looks.empty_counts()
    for seed in range(SCRIPTS):
        script = random_looks.script(seed, STEPS)
        status, answers, errors = ran(program, "run", "\n".join(script) + "\n")
        if (status, errors) != (0, ""):
            yield f"random script {seed} ends with {status} {errors!r}"
            continue
        try:
            random_looks.Checker(script, answers.splitlines(), told).run()
        except random_looks.Wrong as wrong:
            yield f"random script {seed}: {wrong}"
    for kind in ("explanations", "fates"):
        if told[kind] < LEAST:
            yield f"{told[kind]} {kind} in place of {LEAST}"
    if "-v" in sys.argv:
        print("\n".join(f"{count:8} {kind}" for kind, count in sorted(told.items())))
    print(f"test_looks.py: {told['explanations']} explanations and {told['fates']} fates of {SCRIPTS} random scripts")


def main() -> None:
    if len(sys.argv) < 2:
        sys.exit("usage: test_looks.py HEAPVIEW [-v]")
    program = os.path.abspath(sys.argv[1])
    wrong = 0
    for part in (cases, lines, words, talk, explained):
        for said in part(program):
            print(f"test_looks.py: {said}")
            wrong += 1
    print(f"test_looks.py: {wrong} wrong")
    sys.exit(wrong > 0)


if __name__ == "__main__":
    main()
