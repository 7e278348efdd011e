"""Reads the worked scripts of worked/: each line of a script stands beside its answer.

A file has cases, and a case is a script with all that has to come of it:

    [body_of_three_bytes]
    # Why it is so. A line that begins with # is for the reader alone.
    ~ is 3 bytes of 61
    heap 4 1000 0 3 64 0000
    begin 0               ok
    insert 0 1 5 0 0 0 ~  ok
    get 0 1               row 1 5 0 0 0 ~
    page 0                page 0 change 1 visible 0 slots 1
                          1 normal 3 0 1
    commit
    ! status 1: bad line 6

- Two spaces or more are between a line and its answer, and neither has two in a row. What stands so by itself, with no line before it,
  is one more line of the answer above.
- Nothing is answered to the first line, nor to a bad line and those behind it; each other line has its answer.
- `~ is 3 bytes of 61` stands before the script: in its lines and its answers ~ is 61 three times. So may ^, % and $ be.
- `! status 1: bad line 6` says how the program ends, and its words on standard error; without it the status is 0, and no word is said.
- `! no line feed at the end` is said of the script's last line.

The answers follow from docs/rules.md, and are never taken from the program.
"""
import glob
import os
import re
from typing import Dict, Iterable, Iterator, List, NamedTuple, Optional, Tuple

HERE = os.path.dirname(os.path.abspath(__file__))
# what may stand for a body
SIGNS = "~^%$"


class Case(NamedTuple):
    name: str
    text: bytes
    answers: List[str]  # of each line that is answered, all lines of its answer
    status: int = 0
    words: str = ""  # on standard error


def bad_line(words: str) -> Optional[int]:
    """The number of the bad line that the words tell of, if they do."""
    told = re.fullmatch(r"bad line (\d+)", words)
    return int(told[1]) if told else None


def beside(lines: Iterable[str]) -> List[Tuple[str, str]]:
    """The lines of a script, each with its answer, which is empty where nothing is answered."""
    pairs: List[Tuple[str, str]] = []
    for line in lines:
        found = re.fullmatch(r"(\S+(?: \S+)*)?(?:  +(\S+(?: \S+)*))?", line)
        assert found, f"a line and its answer can't be told apart: {line!r}"
        asked, answer = found[1], f"{found[2]}\n" if found[2] else ""
        if asked:
            pairs.append((asked, answer))
        else:
            assert pairs and pairs[-1][1], f"no answer is above this line of one: {line!r}"
            pairs[-1] = pairs[-1][0], pairs[-1][1] + answer
    return pairs


def spelled_out(text: str, bodies: Dict[str, str]) -> str:
    """The text with a body in the place of each sign."""
    for sign, body in bodies.items():
        text = text.replace(sign, body)
    return text


def case_of(name: str, block: List[str]) -> Case:
    lines: List[str] = []
    bodies: Dict[str, str] = {}
    end, status, words = "\n", 0, ""
    for line in block:
        body = re.fullmatch(rf"([{SIGNS}]) is (\d+) bytes of ([0-9a-f]{{2}})", line)
        ended = re.fullmatch(r"! status (\d): (.+)", line)
        if body:
            bodies[body[1]] = body[3] * int(body[2])
        elif ended:
            status, words = int(ended[1]), ended[2]
        elif line == "! no line feed at the end":
            end = ""
        elif line and not line.startswith("#"):
            assert line[0] not in f"!{SIGNS}", f"{name}: no line of a case: {line}"
            lines.append(line)
    pairs = beside(lines)
    answered = len(pairs) if status == 0 else (bad_line(words) or 0) - 1
    assert [bool(answer) for _, answer in pairs] == [0 < at < answered for at in range(len(pairs))], f"{name}: which lines are answered?"
    text = "\n".join(asked for asked, _ in pairs) + end
    assert set(re.findall(f"[{SIGNS}]", text)) == bodies.keys(), f"{name}: what are {SIGNS}?"
    answers = [spelled_out(answer, bodies) for _, answer in pairs if answer]
    return Case(name, spelled_out(text, bodies).encode(), answers, status, words)


def cases_in(path: str) -> Iterator[Case]:
    """The cases of a file."""
    with open(path, encoding="utf-8") as file:
        head, *parts = re.split(r"^\[(\w+)\]$", file.read(), flags=re.M)
    assert all(line.startswith("#") for line in head.split("\n") if line), f"{path}: a line is before the first case"
    for name, block in zip(parts[::2], parts[1::2]):
        yield case_of(name, block.split("\n"))


def cases() -> List[Case]:
    """All worked scripts."""
    found = [case for path in sorted(glob.glob(f"{HERE}/worked/*.txt")) for case in cases_in(path)]
    assert found and len({case.name for case in found}) == len(found), "two cases have one name"
    return found
