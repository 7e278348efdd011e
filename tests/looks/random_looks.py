"""Random scripts with looks, and what has to be true of their answers.

Behind each explanation stands what the session reads: the version that is told as seen holds that row, and where none is told none is read.
Each verdict follows from the reasons that are told. The fates of a page's slots stand before a pruning, and the page behind it shows what
went. The holder of the horizon is the first of the sessions that their own lines make it.
"""
import collections
import random
import re
from typing import Counter, Dict, Iterator, List, Optional, Set, Tuple

SESSIONS = range(6)
SLOTS = range(1, 60)
TURN = 2 ** 32

# of which steps a session that is open does one, and how often
STEPS = {"update": 30, "insert": 12, "delete": 5, "commit": 16, "abort": 4, "savepoint": 6, "rollbackto": 3, "release": 3, "cursor": 2}


class Wrong(Exception):
    """An answer that can't be."""


def check(holds: object, *said: object) -> None:
    if not holds:
        raise Wrong(" | ".join(map(str, said)))


class Drawn:
    """Draws steps: of how many sessions, of which most read by statement or by snapshot, and of how many keys."""

    def __init__(self, seed: int) -> None:
        self.draw = random.Random(seed)
        self.sessions = self.draw.choice([2, 3, 6])
        self.by_statement = self.draw.choice([0.2, 0.8, 1.0])
        self.keys = self.draw.choice([3, 8, 30])
        self.steps = {**STEPS, "commit": self.draw.choice([4, 16])}
        self.value = iter(range(1, 10 ** 9))
        self.opened: Set[int] = set()
        self.cursors: Set[int] = set()

    def key(self) -> int:
        return self.draw.randrange(1, self.keys)

    def step(self) -> str:
        """The next step of some session, or of the vacuum."""
        session = self.draw.randrange(self.sessions)
        if self.draw.random() < 0.04:
            return self.draw.choice(["vacuum begin normal", "vacuum begin aggressive", *["vacuum step"] * 8])
        if session not in self.opened:
            self.opened.add(session)
            return f"{'beginrc' if self.draw.random() < self.by_statement else 'begin'} {session}"
        step = self.draw.choices(list(self.steps), list(self.steps.values()))[0]
        if step in ("insert", "update"):
            return f"{step} {session} {self.key()} {next(self.value)} {self.draw.randrange(3)} 0 0 -"
        if step == "delete":
            return f"delete {session} {self.key()}"
        if step == "cursor":
            self.cursors ^= {session}
            return f"{'openheap' if session in self.cursors else 'close'} {session}"
        if step in ("commit", "abort"):
            self.opened.discard(session)
            self.cursors.discard(session)
        return f"{step} {session}"

    def many_ids(self) -> List[str]:
        """A session that takes more ids than a snapshot lists of one."""
        self.opened.add(0)
        self.cursors.discard(0)
        takes = [["savepoint 0", f"insert 0 {self.draw.randrange(100, 10 ** 6)} {next(self.value)} 0 0 0 -", "release 0"] for _ in range(66)]
        return ["abort 0", "beginrc 0", *(line for lines in takes for line in lines)]

    def older_writer(self) -> List[str]:
        """An older id writes over what a later one wrote, and ends while an id between them runs: so a version goes with a later one."""
        a, b, c = self.draw.sample(SESSIONS, 3)
        key, value = self.key(), lambda: f"{next(self.value)} 0 0 0 -"
        self.opened -= {a, c}
        self.opened.add(b)
        self.cursors -= {a, b, c}
        return [*(f"abort {s}" for s in (a, b, c)), f"beginrc {a}", f"insert {a} {self.draw.randrange(100, 10 ** 6)} {value()}",
                f"beginrc {b}", f"insert {b} {self.draw.randrange(100, 10 ** 6)} {value()}", f"begin {c}", f"update {c} {key} {value()}", f"commit {c}",
                f"update {a} {key} {value()}", f"commit {a}"]


def asked(session: int, key: int) -> List[str]:
    return [f"get {session} {key}", f"explain {session} {key}"]


def written(line: str) -> List[str]:
    """Behind a write, what its session reads there."""
    found = re.fullmatch(r"(?:insert|update) (\d) (\d+) .*", line)
    return asked(int(found[1]), int(found[2])) if found else []


def script(seed: int, length: int) -> List[str]:
    """A script of so many steps, with looks behind each."""
    drawn = Drawn(seed)
    draw = drawn.draw
    lines = [f"heap 4 100000 {draw.choice([0, 4])} {draw.choice([3, TURN - 40])} 64 {draw.choice(['0000', '1000', '0100'])}"]
    for number in range(length):
        made = drawn.many_ids() if seed % 8 == 0 and number == length // 3 else drawn.older_writer() if number % 25 == 24 else [drawn.step()]
        for line in made:
            lines += [line, *written(line)]
        for _ in range(4):
            lines += asked(draw.randrange(drawn.sessions), drawn.key())
        if draw.random() < 0.1:
            lines += ["ids", *(f"session {session}" for session in SESSIONS), "horizon"]
        if draw.random() < 0.25:
            lines += ["page 0", *(f"fate 0 {slot}" for slot in SLOTS), "prune 0", "page 0"]
    return lines


def counts(reason: str) -> bool:
    """Whether what an id did counts, by the reason that is told."""
    word = reason.split()[1]
    check(word in ("own", "aborted", "running", "seen", "unseen"), "reason", reason)
    return word in ("own", "seen")


class Checker:
    """Goes along a script and its answers."""

    def __init__(self, lines: List[str], answers: List[str], told: Counter[str]) -> None:
        self.lines, self.answers, self.told = lines, answers, told
        self.at = 0
        self.rows: Dict[Tuple[int, int], str] = {}  # by page and slot: the first column of the version that was written there last
        self.wrote: Optional[Tuple[str, str, str]] = None  # session, key and column of the write just before
        self.read = ""
        self.page: Optional[List[List[str]]] = None
        self.fates: Dict[int, str] = {}
        self.sessions: Dict[int, Tuple[Optional[int], List[int]]] = {}
        self.next_id = 0

    def take(self) -> str:
        self.at += 1
        check(self.at <= len(self.answers), "no answer")
        return self.answers[self.at - 1]

    def more(self, word: str) -> bool:
        return self.at < len(self.answers) and self.answers[self.at].startswith(word)

    def run(self) -> None:
        for line in self.lines[1:]:
            words = line.split()
            known = {"get": self.get, "explain": self.explain, "session": self.session, "horizon": self.horizon, "page": self.a_page, "fate": self.fate,
                     "ids": self.ids}
            if words[0] in known:
                known[words[0]](words)
            else:
                answer = self.take()
                self.wrote = (words[1], words[2], words[3]) if words[0] in ("insert", "update") and answer == "ok" else None
        check(self.at == len(self.answers), "answers are left")

    def get(self, words: List[str]) -> None:
        self.read = self.take()

    def explain(self, words: List[str]) -> None:
        head = self.take()
        if head.startswith("error"):
            check(self.read == head, words, self.read, head)
            return
        found, seen, entries = re.fullmatch(r"explain (\d+) (\d+) entries (\d+)", head), [], 0
        check(found and found[1] == words[1] and found[2] == words[2], words, head)
        while self.more("entry ") or self.more("version "):
            line = self.take()
            if line.startswith("entry "):
                entries += 1
                check(re.fullmatch(r"entry \d+ \d+ (root|dead|redirect \d+)", line), line)
            else:
                seen += self.version(line)
        check(found and entries == int(found[3]), words, head, entries)
        self.compare(words, seen)

    def version(self, line: str) -> List[Tuple[int, int]]:
        """The place of a version that is told as seen."""
        found = re.fullmatch(r"version (\d+) (\d+) (seen|hidden) maker (.+) deleter (.+)", line)
        check(found, line)
        assert found
        maker, deleter = found[4], found[5]
        for reason in (maker, deleter):
            self.told[re.sub(r"\d+", "N", reason)] += 1
        shows = (maker == "frozen" or counts(maker)) and (deleter == "none" or not counts(deleter))
        check(shows == (found[3] == "seen"), line)
        return [(int(found[1]), int(found[2]))] if shows else []

    def compare(self, words: List[str], seen: List[Tuple[int, int]]) -> None:
        """What is told as seen is what was read just before."""
        if self.read == "none":
            check(not seen, words, self.read, seen)
        elif self.read.startswith("row"):
            check(len(seen) == 1, words, self.read, seen)
            column = self.read.split()[2]
            if self.wrote == (words[1], words[2], column):
                self.rows[seen[0]] = column
            check(self.rows.get(seen[0]) == column, words, self.read, seen, self.rows.get(seen[0]))
        else:
            # a session that has failed reads no more, and is explained all the same
            check(self.read == "error 3 Failed" and len(seen) < 2, words, self.read, seen)
            return
        self.told["explanations"] += 1

    def a_page(self, words: List[str]) -> None:
        head = self.take()
        found = re.fullmatch(r"page 0 change \d+ visible \d+ slots (\d+)", head)
        slots = [self.take().split() for _ in range(int(found[1]))] if found else None
        if self.fates and self.page is not None and slots is not None:
            self.pruned(self.page, slots)
        self.page, self.fates = slots, {}

    def fate(self, words: List[str]) -> None:
        answer = self.take()
        if self.page is None:
            check(answer == "error 19 NoSuchPage", words, answer)
        else:
            check(answer.startswith(f"fate 0 {words[2]} "), words, answer)
            self.fates[int(words[2])] = answer.split(" ", 3)[3]

    def pruned(self, before: List[List[str]], after: List[List[str]]) -> None:
        """What went is what the fates said."""
        for number, fate in self.fates.items():
            if number > len(before):
                check(fate == "none", number, fate)
                continue
            old, new = before[number - 1], after[number - 1] if number <= len(after) else ["", "unused"]
            if old[1] != "normal":
                check(fate == " ".join(old[1:]), old, fate)
                continue
            takes = fate.startswith("dead ") or fate.startswith("goes ")
            check(takes == (new[1] != "normal"), old, new, fate)
            check(takes or fate.startswith("kept "), old, fate)
            self.told["fates"] += 1
            self.told["fate " + re.sub(r"\d+", "N", fate)] += 1

    def ids(self, words: List[str]) -> None:
        self.next_id, self.sessions = int(self.take().split()[1]), {}

    def session(self, words: List[str]) -> None:
        head = self.take()
        if head.startswith("error"):
            check(head == "error 1 NotOpen", words, head)
            return
        check(re.fullmatch(rf"session {words[1]} (snapshot|statement) (ready|failed) savepoints \d+", head), head)
        kept, ids, cursor, waits = self.take().split(), self.take().split(), self.take(), self.take()
        check(cursor.startswith("cursor ") and waits.startswith("waits "), cursor, waits)
        xmin = None
        if kept[1] != "none":
            xmin, listed = int(kept[1]), kept[kept.index("listed") + 2:]
            check(int(kept[kept.index("listed") + 1]) == len(listed), kept)
            far = [(int(x) - xmin) % TURN for x in listed]
            check(far == sorted(set(far)), kept)
        self.sessions[int(words[1])] = (xmin, list(map(int, ids[1:])))

    def horizon(self, words: List[str]) -> None:
        """The earliest of all that sessions hold back, counted back from the next id, and the first session that holds it."""
        held = [x for xmin, ids in self.sessions.values() for x in [xmin, *ids[:1]] if x is not None] + [self.next_id]
        earliest = max(held, key=lambda x: (self.next_id - x) % TURN)
        holder = "next"
        for session, (xmin, ids) in sorted(self.sessions.items(), reverse=True):
            if ids[:1] == [earliest]:
                holder = f"id {session}"
            if xmin == earliest:
                holder = f"snapshot {session}"
        answer = self.take()
        check(answer == f"horizon {earliest} {holder}", answer, earliest, holder)
        self.told["horizon " + holder.split()[0]] += 1


def empty_counts() -> Counter[str]:
    return collections.Counter()
