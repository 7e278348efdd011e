"""Random transcripts of the program's own answers, and wrong answers planted in them.

Each planted answer is wrong by an argument of its own, given what was answered, and needs no history to be seen as wrong.
"""
import random
import re
import subprocess
from typing import Callable, Dict, List, NamedTuple, Optional, Set, Tuple

HEADING = "heap 6 4000000 50 3 64 1000"
# No step writes this in a column.
NOBODYS = "row 1 987654321 0 0 0 -"


class Exchange(NamedTuple):
    asked: str
    answer: List[str]


def more_lines(first: str) -> int:
    """How many lines of an answer follow its first."""
    words = first.split()
    return int(words[1]) if words and words[0] in ("rows", "keys") else 0


def transcript(heading: str, exchanges: List[Exchange]) -> str:
    return "".join(f"{line}\n" for line in [heading, *(line for said in exchanges for line in (f"> {said.asked}", *said.answer))])


def answered(heapsh: str, lines: List[str], to_the_end: bool = True) -> List[Exchange]:
    """What the program answers to the lines; a broken one may die before their end."""
    script = "".join(f"{line}\n" for line in [HEADING, *lines])
    ran = subprocess.run([heapsh, "run"], input=script, capture_output=True, text=True, check=to_the_end)
    told, exchanges = ran.stdout.splitlines(), []
    for line in lines:
        if not to_the_end and (not told or len(told) < 1 + more_lines(told[0])):
            return exchanges
        count = 1 + more_lines(told[0])
        exchanges.append(Exchange(line, told[:count]))
        told = told[count:]
    return exchanges


def steps(draw: random.Random, count: int) -> List[str]:
    """Lines of three sessions, most of which ask for what can be done."""
    lines: List[str] = []
    is_open: Dict[int, bool] = {0: False, 1: False, 2: False}
    has_cursor: Dict[int, bool] = {0: False, 1: False, 2: False}
    while len(lines) < count:
        s, key, value = draw.randrange(3), draw.randrange(1, 6), draw.randrange(5)
        if not is_open[s]:
            lines.append(draw.choice([f"begin {s}", f"begin {s}", f"beginrc {s}"]))
            is_open[s], has_cursor[s] = True, False
        elif has_cursor[s]:
            lines.append(draw.choice([f"next {s} {value}", f"next {s} 9", f"get {s} {key}", f"close {s}"]))
            has_cursor[s] = not lines[-1].startswith("close")
        else:
            what = draw.randrange(20)
            if what < 5:
                lines.append(f"insert {s} {key} {value} 0 0 0 {draw.choice(['-', '68656c6c6f'])}")
            elif what < 9:
                lines.append(f"update {s} {key} {value} 0 0 0 -")
            elif what < 11:
                lines.append(f"delete {s} {key}")
            elif what < 13:
                lines.append(f"get {s} {key}")
            elif what < 15:
                lines.append(draw.choice([f"openindex {s} 0 0 9", f"openindex {s} 1 0 9", f"openheap {s}", f"openkeys {s} 0 9"]))
                has_cursor[s] = True
            elif what == 15:
                lines.append(draw.choice([f"savepoint {s}", f"rollbackto {s}", f"release {s}"]))
            elif what == 16:
                lines.append(draw.choice(["prune 0", "vacuum begin normal", "vacuum step", "vacuum finish", "ids", f"takepage {s} 0"]))
            else:
                lines.append(draw.choice([f"commit {s}", f"commit {s}", f"abort {s}"]))
                is_open[s] = False
    return lines


def other_session(answer: str) -> str:
    """Busy, and not by who it was."""
    return f"error 7 Busy {(int(answer.split()[-1]) + 1) % 3}"


# What was asked, what was answered, and what is wrong in its place; with the argument.
PLANTS: List[Callable[[str, str], Optional[List[str]]]] = [
    # nobody wrote such a row
    lambda asked, answer: [NOBODYS.replace("row 1", f"row {asked.split()[2]}")] if asked.startswith("get") and answer.split()[0] in ("row", "none") else None,
    # a read that was answered is no read that a session may not make
    lambda asked, answer: ["error 1 NotOpen"] if asked.startswith("get") and answer.split()[0] in ("row", "none") else None,
    # a row that was handed out was left, and a cursor is over only when none is
    lambda asked, answer: ["end"] if answer.split()[0] in ("rows", "keys") and asked.startswith("next") else None,
    # nothing was left, and so there is no row to hand out
    lambda asked, answer: ["rows 1", NOBODYS] if answer == "end" else None,
    # of a transaction that can commit, and of one that has failed, the other is told
    lambda asked, answer: ["rolled back"] if answer == "committed" else None,
    lambda asked, answer: ["committed"] if asked.startswith("commit") and answer == "rolled back" else None,
    # a key that somebody else holds, or has committed since, is not written
    lambda asked, answer: ["ok"] if answer.startswith(("error 6", "error 7", "error 8")) else None,
    # one session alone holds a key
    lambda asked, answer: [other_session(answer)] if answer.startswith("error 7") else None,
    # a write that was done was not late, and held by nobody, and suited what was read
    lambda asked, answer: ["error 6 Conflict"] if asked.startswith(("insert", "update", "delete")) and answer == "ok" else None,
    lambda asked, answer: ["error 8 Deadlock"] if asked.startswith(("insert", "update", "delete")) and answer == "ok" else None,
    lambda asked, answer: ["error 4 AlreadyThere"] if asked.startswith("insert") and answer == "ok" else None,
    lambda asked, answer: ["error 5 NotThere"] if asked.startswith(("update", "delete")) and answer == "ok" else None,
    # a key that has a row, or none, is no other
    lambda asked, answer: ["ok"] if answer.startswith(("error 4", "error 5")) else None,
    # a session that could begin was not open
    lambda asked, answer: ["error 2 AlreadyOpen"] if asked.startswith("begin") and answer == "ok" else None,
    # a savepoint that is not there is not returned to, and one that is there is
    lambda asked, answer: ["ok"] if answer.startswith("error 12") else None,
    lambda asked, answer: ["error 12 NoSavepoint"] if asked.startswith("rollbackto") and answer == "ok" else None,
    # no step but a cursor's ends
    lambda asked, answer: ["end"] if asked.startswith("begin") and answer == "ok" else None,
]


READS = ("one snapshot", "statement", "own writes")
# The rule by which an answer comes, by its beginning. A read goes by one of three.
RULES: List[Tuple[str, Tuple[str, ...]]] = [
    ("error 4 ", ("view of a write",)),
    ("error 5 ", ("view of a write",)),
    ("error 6 ", ("first committer wins",)),
    ("error 7 ", ("one writer",)),
    ("error 8 ", ("ring",)),
    ("error 12 ", ("savepoint",)),
    ("error 2 ", ("order of tests",)),
    ("row ", READS),
    ("none", READS),
    ("committed", ("commit",)),
    ("rolled back", ("commit",)),
    ("rows ", ("cursor",)),
    ("keys ", ("cursor",)),
    ("end", ("cursor",)),
]


class Session:
    """An open session: where its snapshot is, and the keys that it wrote at each level."""

    def __init__(self, start: Optional[int]) -> None:
        self.start = start
        self.levels: List[Set[int]] = [set()]

    def keys(self) -> Set[int]:
        return set().union(*self.levels)


class Story:
    """Who read and wrote what, as far as it is shown."""

    def __init__(self, exchanges: List[Exchange]) -> None:
        self.commits = 0
        self.writers: Dict[int, int] = {}
        self.open: Dict[int, Session] = {}
        self.opened: Dict[int, str] = {}
        for said in exchanges:
            self.goes_on(said.asked.split(), said.answer[0])

    def goes_on(self, words: List[str], answer: str) -> None:
        verb, s = words[0], int(words[1]) if len(words) > 1 and words[1].isdigit() else -1
        if answer == "ok" and verb.startswith("open"):
            self.opened[s] = verb
        elif answer == "ok" and verb in ("begin", "beginrc"):
            self.open[s] = Session(self.commits if verb == "begin" else None)
        elif answer == "ok" and verb in ("insert", "update", "delete"):
            self.open[s].levels[-1].add(int(words[2]))
        elif answer == "ok" and verb == "savepoint":
            self.open[s].levels.append(set())
        elif answer == "ok" and verb == "rollbackto":
            self.open[s].levels[-1] = set()
        elif answer == "ok" and verb == "release":
            newest = self.open[s].levels.pop()
            self.open[s].levels[-1] |= newest
        elif answer == "committed":
            self.writers.update((key, self.commits) for key in self.open.pop(s).keys())
            self.commits += 1
        elif answer == "rolled back":
            del self.open[s]

    def due(self, said: Exchange) -> str:
        """What is due in the place of an answer that was right."""
        first, lines = said.answer[0], "\n".join(said.answer)
        words = said.asked.split()
        if first.startswith("rows") and self.opened.get(int(words[1])) == "openheap":
            return "allowed more than one answer"
        return f"allowed {lines}" if first == "ok" or first.startswith(("rows", "keys")) else f"due {lines}"

    def shown(self, asked: str) -> str:
        words = asked.split()
        s = int(words[1])
        if words[0] not in ("get", "insert", "update", "delete") or s not in self.open:
            return ""
        key, start = int(words[2]), self.open[s].start
        writer = f"commit {self.writers[key]} wrote key {key} last" if key in self.writers else f"no commit wrote key {key}"
        holders = [f"; session {o} holds it" for o, other in self.open.items() if o != s and key in other.keys()]
        return f"shown session {s} reads commits below {self.commits if start is None else start}; {writer}{''.join(holders)}\n"


def rules_of(right: str, told: str) -> Tuple[str, ...]:
    """The rule of what was due, or of what was told where the step could be done."""
    return next(rules for begins, rules in RULES if (told if right == "ok" else right).startswith(begins))


def wrong_text(exchanges: List[Exchange], n: int, told: List[str]) -> Tuple[str, Tuple[str, ...]]:
    """What is said where the nth of them is answered so, with a mark for the rule, and the rules that it may be."""
    said, story = exchanges[n], Story(exchanges[:n])
    number = 2 + sum(1 + len(before.answer) for before in exchanges[:n])
    answer = "\n".join(told)
    says = f"line {number}: {said.asked}\nanswered {answer}\n{story.due(said)}\nrule RULE\n{story.shown(said.asked)}"
    return says, rules_of(said.answer[0], told[0])


class Plant(NamedTuple):
    """A wrong answer in the place of the nth."""

    text: str
    says: str
    rules: Tuple[str, ...]


def planted(draw: random.Random, exchanges: List[Exchange]) -> Plant:
    """One of them with a wrong answer, and what is said of it."""
    places = [(n, told) for n, said in enumerate(exchanges) for make in PLANTS for told in [make(said.asked, said.answer[0])] if told]
    n, told = draw.choice(places)
    wrong = [*exchanges[:n], Exchange(exchanges[n].asked, told), *exchanges[n + 1 :]]
    return Plant(transcript(HEADING, wrong), *wrong_text(exchanges, n, told))


def exchanges_of(text: str) -> List[Exchange]:
    """The lines that are asked in a transcript, each with the lines of its answer."""
    said: List[Exchange] = []
    for line in text.split("\n")[1:-1]:
        if line.startswith("> "):
            said.append(Exchange(line[2:], []))
        else:
            said[-1].answer.append(line)
    return said


def left_open(text: str) -> int:
    """How many refusals of a transcript that is allowed are for memory, ids, room, pages and plans."""
    return sum(re.match(r"error (14|15|16|19|21) ", said.answer[0]) is not None for said in exchanges_of(text) if not said.asked.startswith("page"))
