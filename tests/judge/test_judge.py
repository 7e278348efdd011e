#!/usr/bin/env python3
"""Transcripts with what the judge has to say of them: test_judge.py HEAPJUDGE HEAPSH

Twenty that a reference engine made on random scripts, and the same with one wrong answer each, whose line stands in the file beside (transcripts).
A thousand random ones of the program's own answers, and the same with an answer that is wrong by an argument (planted.py). A journal of
10,000 lines of eight workers. A transcript that is cut after each of its bytes, and mangled ones. Ten schedules that PostgreSQL answered.
Words of the command line, a reader and a writer that fail.
"""
import glob
import os
import random
import re
import subprocess
import sys
import tempfile
import time
from concurrent.futures import ThreadPoolExecutor
from typing import Callable, Dict, Iterator, List, NamedTuple, Tuple

import planted

HERE = os.path.dirname(os.path.abspath(__file__))
LOOKS = ("ids", "page", "entries")


class End(NamedTuple):
    status: int
    output: str
    errors: str
    # which rule may stand for RULE in the output
    rules: Tuple[str, ...] = ()


class Case(NamedTuple):
    name: str
    text: bytes
    end: End
    words: Tuple[str, ...] = ()


def judge(program: str, text: bytes, words: Tuple[str, ...] = ()) -> End:
    ran = subprocess.run([program, *words], input=text, capture_output=True, check=False)
    return End(ran.returncode, ran.stdout.decode(), ran.stderr.decode())


def is_end(end: End, wanted: End) -> bool:
    """Whether it is the end that is wanted, by a rule that it may be."""
    rule = re.search(r"^rule (.*)$", end.output, re.M)
    if wanted.rules and rule:
        wanted = wanted._replace(output=wanted.output.replace("RULE", rule[1] if rule[1] in wanted.rules else "another"), rules=())
    return end == wanted


def allowed(count: int, left_open: int = 0) -> End:
    return End(0, f"allowed {count}, left open {left_open}\n", "")


def allowed_text(text: str) -> End:
    return allowed(count_steps(text), planted.left_open(text))


def wrong(says: str, rules: Tuple[str, ...] = ()) -> End:
    return End(4, says, "", rules)


def bad_line(number: int) -> End:
    return End(1, "", f"bad line {number}\n")


def count_steps(text: str) -> int:
    """How many lines of a transcript ask for a step."""
    return sum(line.startswith("> ") and not line[2:].startswith(LOOKS) for line in text.splitlines())


def kept_transcripts(_heapsh: str) -> Iterator[Case]:
    for path in sorted(glob.glob(f"{HERE}/transcripts/*.allowed")):
        name = os.path.basename(path)[: -len(".allowed")]
        with open(path, encoding="utf-8") as file:
            text = file.read()
        yield Case(f"{name}, allowed", text.encode(), allowed_text(text))
        with open(path.replace(".allowed", ".wrong"), encoding="utf-8") as file:
            bad = file.read()
        exchanges, others = planted.exchanges_of(text), planted.exchanges_of(bad)
        n = next(n for n, (one, other) in enumerate(zip(exchanges, others)) if one != other)
        says, rules = planted.wrong_text(exchanges, n, others[n].answer)
        with open(path.replace(".allowed", ".says"), encoding="utf-8") as file:
            if not says.startswith(file.read()):
                sys.exit(f"test_judge.py: {name}.says names another line")
        yield Case(f"{name}, wrong", bad.encode(), wrong(says, rules))
        # all that comes behind it is allowed, where what is due is one answer
        if "more than one" not in says:
            yield Case(f"{name}, all", bad.encode(), wrong(f"{says}wrong 1, {allowed_text(text).output}".replace(f"allowed {count_steps(text)},", f"allowed {count_steps(text) - 1},"), rules), ("--all",))


def random_transcripts(heapsh: str) -> Iterator[Case]:
    def cases(seed: int) -> List[Case]:
        draw = random.Random(seed)
        exchanges = planted.answered(heapsh, planted.steps(draw, 60))
        text = planted.transcript(planted.HEADING, exchanges)
        plant = planted.planted(draw, exchanges)
        return [Case(f"random {seed}", text.encode(), allowed_text(text)), Case(f"planted {seed}", plant.text.encode(), wrong(plant.says, plant.rules))]

    with ThreadPoolExecutor() as pool:
        for made in pool.map(cases, range(1000)):
            yield from made


def journals(heapsh: str) -> Iterator[Case]:
    """Eight workers with a session each, over few keys."""
    draw = random.Random(8)
    lines = []
    for _ in range(10_000 // 5):
        worker, key = draw.randrange(8), draw.randrange(40)
        write = draw.choice([f"insert {worker} {key} 1 0 0 0 -", f"update {worker} {key} 2 0 0 0 -", f"delete {worker} {key}"])
        lines += [f"@{worker} {line}" for line in (f"begin {worker}", write, f"get {worker} {key}", draw.choice(["vacuum step", f"get {worker} 7"]), f"commit {worker}")]
    script = "".join(f"{line}\n" for line in ["heap 50 4000000 50 3 64 0000", *lines])
    ran = subprocess.run([heapsh, "threads"], input=script.encode(), capture_output=True, check=True)
    yield Case("a journal of eight workers", b"heap 50 4000000 50 3 64 0000\n" + ran.stdout, allowed(10_000))


def end_of_cut(text: str, at: int) -> End:
    """What is said of a transcript that is cut there: its last exchange is whole or not."""
    cut, number = text[:at], 1
    if "\n" not in cut:
        return bad_line(1)
    rest = cut[cut.index("\n") + 1 :]
    count, before = 0, 1
    for said in planted.exchanges_of(text):
        asked, answer = f"> {said.asked}", said.answer
        lines = "".join(f"{line}\n" for line in (asked, *answer))
        if rest == "":
            return allowed(count)
        # half a prompt is a line of the answer before, which has no end then
        if rest == ">" and before > 1:
            return bad_line(before)
        before = number + 2
        if not rest.startswith(lines):
            # the line is whole or torn; of its answer something lacks
            return bad_line(number + (2 if rest.startswith(f"{asked}\n") else 1))
        rest, number, count = rest[len(lines) :], number + 1 + len(answer), count + count_steps(lines)
    return allowed(count)


CUT_STEPS = [
    "begin 0", "insert 0 1 5 0 0 0 68656c6c6f", "insert 0 2 -7 0 0 0 -", "get 0 1", "get 0 3", "commit 0", "ids", "beginrc 1", "openindex 1 0 0 9", "next 1 5", "next 1 1",
    "close 1", "openkeys 1 0 9", "next 1 9", "close 1", "savepoint 1", "delete 1 1", "begin 2", "update 2 1 9 0 0 0 -", "commit 1", "update 2 1 9 0 0 0 -", "commit 2",
    "vacuum begin normal", "vacuum step", "vacuum finish", "prune 0", "takepage 0 0", "begin 64",
]


def cut_transcripts(heapsh: str) -> Iterator[Case]:
    text = planted.transcript(planted.HEADING, planted.answered(heapsh, CUT_STEPS))
    for at in range(len(text) + 1):
        yield Case(f"cut after {at} bytes", text[:at].encode(), end_of_cut(text, at))


BAD = [
    ("no first line", "", 1),
    ("an empty first line", "\n", 1),
    ("a setting out of range", "heap 0 4000000 50 3 64 1000\n", 1),
    ("no prompt", "heap 4 1000 0 3 64 0000\nbegin 0\nok\n", 2),
    ("an unknown line", "heap 4 1000 0 3 64 0000\n> begin 0\nok\n> began 0\nok\n", 4),
    ("a number out of range", "heap 4 1000 0 3 64 0000\n> begin 256\nok\n", 2),
    ("no answer", "heap 4 1000 0 3 64 0000\n> begin 0\n> get 0 1\nnone\n", 3),
    ("two answers", "heap 4 1000 0 3 64 0000\n> begin 0\nok\nok\n", 3),
    ("an answer of no kind", "heap 4 1000 0 3 64 0000\n> begin 0\nyes\n", 3),
    ("too few rows", "heap 4 1000 0 3 64 0000\n> next 0 2\nrows 2\nrow 1 0 0 0 0 -\n", 3),
    ("too many rows", "heap 4 1000 0 3 64 0000\n> next 0 2\nrows 1\nrow 1 0 0 0 0 -\nrow 2 0 0 0 0 -\n", 3),
    ("a body that is too long", "heap 4 1000 0 3 64 0000\n> get 0 1\nrow 1 0 0 0 0 " + "00" * 1025 + "\n", 3),
    ("a refusal with another's number", "heap 4 1000 0 3 64 0000\n> begin 0\nerror 3 NotOpen\n", 3),
    ("a zero in front", "heap 4 1000 0 3 64 0000\n> get 0 1\nrow 01 0 0 0 0 -\n", 3),
]

TOLD = [
    # who holds a key need not be told
    ("Busy by somebody", "heap 4 1000 0 3 64 0000\n> begin 0\nok\n> begin 1\nok\n> insert 0 1 0 0 0 0 -\nok\n> insert 1 1 0 0 0 0 -\nerror 7 Busy\n", allowed(4), ()),
    ("Busy by nobody", "heap 4 1000 0 3 64 0000\n> begin 0\nok\n> insert 0 1 0 0 0 0 -\nerror 7 Busy\n", wrong("line 4: insert 0 1 0 0 0 0 -\nanswered error 7 Busy\nallowed ok\nrule one writer\nshown session 0 reads commits below 0; no commit wrote key 1\n"), ()),
    # looks of any answer are passed over
    ("looks", "heap 4 1000 0 3 64 0000\n> ids\nnext 3 frozen_below 3\n> explain 0 1\nexplain 0 1 entries 0\n> horizon\nhorizon 3 next\n> vacuum\nvacuum none\n> page 0\nerror 19 NoSuchPage\n", allowed(0), ()),
    # the same read by snapshot and by statement
    ("a later commit is read", READS := "heap 4 1000 0 3 64 0000\n> begin 0\nok\n> begin 1\nok\n> insert 1 1 0 0 0 0 -\nok\n> commit 1\ncommitted\n> get 0 1\nrow 1 0 0 0 0 -\n",
     wrong(LATER := "line 10: get 0 1\nanswered row 1 0 0 0 0 -\ndue none\nrule one snapshot\nshown session 0 reads commits below 0; commit 0 wrote key 1 last\n"), ()),
    ("as by statement", READS, allowed(5), ("--statement",)),
    ("by statement as by snapshot", READS.replace("begin 0", "beginrc 0"), wrong(LATER), ("--snapshot",)),
    # what comes behind a wrong answer is judged as if the right one had been given
    ("a write that was done, and was late", "heap 4 1000 0 3 64 0000\n> begin 0\nok\n> begin 1\nok\n> insert 1 1 0 0 0 0 -\nok\n> commit 1\ncommitted\n> insert 0 1 1 0 0 0 -\nok\n> get 0 1\nerror 3 Failed\n> commit 0\ncommitted\n",
     wrong("line 10: insert 0 1 1 0 0 0 -\nanswered ok\ndue error 6 Conflict\nrule first committer wins\nshown session 0 reads commits below 0; commit 0 wrote key 1 last\n"
           "line 14: commit 0\nanswered committed\ndue rolled back\nrule commit\nwrong 2, allowed 5, left open 0\n"), ("--all",)),
    ("nothing wrong to the end", "heap 4 1000 0 3 64 0000\n> begin 0\nok\n> insert 0 1 0 0 0 0 -\nerror 14 NoRoom\n", allowed(2, 1), ("--all",)),
    ("no room for ever", "heap 4 1000 0 3 64 0000\n> begin 0\nok\n> insert 0 1 0 0 0 0 -\nerror 14 NoRoom\n> insert 0 1 0 0 0 0 -\nerror 14 NoRoom\n> prune 0\nerror 19 NoSuchPage\n", allowed(4, 3), ()),
    ("a bad line behind a wrong answer", "heap 4 1000 0 3 64 0000\n> begin 0\nend\n> begin 0\nyes\n", bad_line(5), ("--all",)),
    ("a cursor that hands out what nobody wrote", "heap 4 1000 0 3 64 0000\n> begin 0\nok\n> insert 0 1 0 0 0 0 -\nok\n> openheap 0\nok\n> next 0 1\nrows 1\nrow 2 0 0 0 0 -\n> next 0 1\nrows 1\nrow 1 0 0 0 0 -\n> next 0 1\nend\n",
     wrong("line 8: next 0 1\nanswered rows 1\nrow 2 0 0 0 0 -\nallowed more than one answer\nrule cursor\nwrong 1, allowed 5, left open 0\n"), ("--all",)),
]


def told_cases(_heapsh: str) -> Iterator[Case]:
    for name, text, number in BAD:
        yield Case(name, text.encode(), bad_line(number))
    for name, text, end, words in TOLD:
        yield Case(name, text.encode(), end, words)


KINDS: Dict[str, Callable[[str], Iterator[Case]]] = {
    "kept transcripts": kept_transcripts,
    "random transcripts": random_transcripts,
    "journals": journals,
    "cut transcripts": cut_transcripts,
    "answers and bad lines": told_cases,
}


def mangled(draw: random.Random, text: bytes) -> bytes:
    lines = text.split(b"\n")
    n = draw.randrange(len(lines))
    how = draw.randrange(4)
    if how == 0:
        lines[n] = lines[draw.randrange(len(lines))]
    elif how == 1:
        del lines[n]
    elif how == 2:
        lines.insert(n, lines[draw.randrange(len(lines))])
    else:
        at = draw.randrange(len(text))
        return text[:at] + bytes([draw.randrange(256)]) + text[at + 1 :]
    return b"\n".join(lines)


def test_mangled(heapjudge: str, heapsh: str) -> int:
    """A mangled transcript is allowed, wrong or has a bad line, and is never anything else."""
    text = planted.transcript(planted.HEADING, planted.answered(heapsh, CUT_STEPS)).encode()

    def fails(seed: int) -> int:
        bad = mangled(random.Random(seed), text)
        ran = subprocess.run([heapjudge], input=bad, capture_output=True, check=False)
        says = {0: (rb"allowed \d+, left open \d+\n", rb""), 1: (rb"", rb"bad line \d+\n"), 4: (rb"line \d+: (?s:.*)\nanswered (?s:.*)\n(due|allowed) (?s:.*)\nrule [a-z ]+\n(shown .*\n)?", rb"")}.get(ran.returncode)
        if says and re.fullmatch(says[0], ran.stdout) and re.fullmatch(says[1], ran.stderr):
            return 0
        print(f"test_judge.py: mangled {seed}: {ran}", file=sys.stderr)
        return 1

    with ThreadPoolExecutor() as pool:
        return sum(pool.map(fails, range(2000)))


def test_page(heapjudge: str, heapsh: str) -> int:
    """The ten lines of docs/judging.md record the program's own answers, which are allowed. Its transcript is said to be wrong as it tells."""
    with open(f"{HERE}/../../docs/judging.md", encoding="utf-8") as file:
        page = file.read()
    lines = re.search(r"<!-- run by tests/judge/test_judge.py -->\n```python\n(.*?)```", page, re.S)
    blocks = [re.sub(r"^    ", "", block, flags=re.M) for block in re.findall(r"(?:^    .*\n)+", page, re.M)]
    shown, said = next((blocks[n : n + 2] for n, block in enumerate(blocks) if block.startswith("heap ")), ["", ""])
    if judge(heapjudge, shown.encode()) != wrong(said):
        print(f"test_judge.py: the transcript of the page: {judge(heapjudge, shown.encode())}", file=sys.stderr)
        return 1
    draw = random.Random(10)
    asked = [planted.HEADING, *planted.steps(draw, 60)]
    with tempfile.TemporaryDirectory() as room:
        with open(f"{room}/lesson.script", "w", encoding="utf-8") as file:
            file.writelines(f"{line}\n" for line in asked)
        words = [sys.executable, "-c", lines[1], f"{room}/lesson.script", heapsh, "run"] if lines else ["false"]
        recorded = subprocess.run(words, capture_output=True, check=False)
    end = judge(heapjudge, recorded.stdout)
    if lines and len(lines[1].splitlines()) == 10 and end == allowed_text(recorded.stdout.decode()):
        return 0
    print(f"test_judge.py: the ten lines of the page: {recorded.stderr!r}, {end}", file=sys.stderr)
    return 1


def test_postgresql(heapjudge: str, heapsh: str) -> int:
    """What PostgreSQL answered to the schedules of examples/anomalies.md is allowed at its level, and its READ COMMITTED is judged as snapshots
    as the page says. The program answers the same, but that it says who holds a key."""
    with open(f"{HERE}/../../examples/anomalies.md", encoding="utf-8") as file:
        rows = re.findall(r"^\| `(\w+)` .*\| ([^|]*) \|$", file.read(), re.M)
    faults = [] if len(rows) == 10 else [f"{len(rows)} schedules"]
    for name, as_snapshots in rows:
        for level, word in (("snapshot", "begin "), ("statement", "beginrc ")):
            with open(f"{HERE}/../postgresql/schedules/{name}.{level}", encoding="utf-8") as file:
                text = file.read()
            words = ("--statement",) if level == "statement" else ()
            faults += [] if judge(heapjudge, text.encode(), words) == allowed_text(text) else [f"{name} is not allowed by {level}"]
            exchanges = planted.exchanges_of(text)
            own = planted.answered(heapsh, [re.sub("^begin ", word, it.asked) for it in exchanges])
            same = [[re.sub(r"Busy \d+$", "Busy", line) for line in it.answer] for it in own] == [it.answer for it in exchanges]
            faults += [] if same else [f"{name} is answered otherwise by {level}"]
        faults += [] if judge(heapjudge, text.encode()).output.split("\n")[0] == as_snapshots else [f"{name} is judged otherwise as snapshots"]
    for fault in faults:
        print(f"test_judge.py: {fault}", file=sys.stderr)
    return len(faults)


def test_outside(heapjudge: str) -> int:
    """Words of the command line, and a reader or a writer that fails."""
    good = b"heap 4 1000 0 3 64 0000\n> begin 0\nok\n"
    wrong_ends = []
    with open("/dev/full", "wb") as full, open(os.devnull, "rb") as null:
        ran = subprocess.run([heapjudge], input=good, stdout=full, stderr=subprocess.PIPE, check=False)
        wrong_ends += [] if (ran.returncode, ran.stderr) == (2, b"output fault\n") else [("a full disk", ran)]
        ran = subprocess.run([heapjudge], stdin=null, capture_output=True, check=False)
        wrong_ends += [] if (ran.returncode, ran.stderr) == (1, b"bad line 1\n") else [("nothing to read", ran)]
    folder = os.open("/", os.O_RDONLY)
    ran = subprocess.run([heapjudge], stdin=folder, capture_output=True, check=False)
    os.close(folder)
    wrong_ends += [] if (ran.returncode, ran.stderr) == (2, b"input fault\n") else [("a folder to read", ran)]
    for words, status, out, err in [
        (["--help"], 0, b"Usage: heapjudge", b""),
        (["--version"], 0, b"heapjudge ", b""),
        (["--sideways"], 1, b"", b"--sideways"),
        (["--statement", "--snapshot"], 1, b"", b"--snapshot"),
    ]:
        ran = subprocess.run([heapjudge, *words], input=good, capture_output=True, check=False)
        wrong_ends += [] if ran.returncode == status and out in ran.stdout and err in ran.stderr else [(" ".join(words), ran)]
    for name, ran in wrong_ends:
        print(f"test_judge.py: {name}: {ran}", file=sys.stderr)
    return len(wrong_ends)


def main() -> None:
    if len(sys.argv) != 3:
        sys.exit("usage: test_judge.py HEAPJUDGE HEAPSH")
    heapjudge, heapsh = map(os.path.abspath, sys.argv[1:])
    began, wrongs, counts = time.time(), 0, []
    for kind, cases in KINDS.items():
        made = list(cases(heapsh))
        with ThreadPoolExecutor() as pool:
            ends = list(pool.map(lambda case: judge(heapjudge, case.text, case.words), made))
        for case, end in zip(made, ends):
            if not is_end(end, case.end):
                wrongs += 1
                if wrongs < 20:
                    print(f"test_judge.py: {case.name}: {end}, and not {case.end}", file=sys.stderr)
        counts.append(f"{len(made)} {kind}")
    wrongs += test_mangled(heapjudge, heapsh) + test_page(heapjudge, heapsh) + test_postgresql(heapjudge, heapsh) + test_outside(heapjudge)
    print(f"test_judge.py: {', '.join(counts)}, 2000 mangled, {time.time() - began:.0f} seconds")
    if wrongs:
        sys.exit(f"test_judge.py: {wrongs} wrong")


if __name__ == "__main__":
    main()
