#!/usr/bin/env python3
"""Judges PostgreSQL's answers to random schedules: random_schedules.py HEAPJUDGE [FOLDER OF POSTGRESQL'S PROGRAMS] [COUNT] [FIRST SEED]

Three sessions read and write six keys, each at REPEATABLE READ, each at READ COMMITTED, or some so and some so. Each answer has to be
allowed at its own level. The schedules at READ COMMITTED are judged as snapshots too, and how many of them are refused is told. A key that a
schedule deletes is not inserted in it again, as PostgreSQL differs there (docs/postgresql.md).
"""
import random
import subprocess
import sys
from typing import List, Set

from recorder import recorded
from server import server

FIRST = ["heap 4 1000 0 3 64 0000", "begin 9", *(f"insert 9 {key} {key * 10} 0 0 0 -" for key in (1, 2, 3)), "commit 9"]
BEGINS = {"snapshots": ["begin"], "statements": ["beginrc"], "both": ["begin", "beginrc"]}


class Schedule:
    """A random schedule, as it grows: who is open, with how many savepoints, and with a cursor or without."""

    def __init__(self, choose: random.Random, kind: str) -> None:
        self.choose, self.begins = choose, BEGINS[kind]
        self.savepoints: List[int] = [-1, -1, -1]
        self.cursors: Set[int] = set()
        self.deleted: Set[int] = set()

    def end(self, s: int) -> str:
        self.savepoints[s] = -1
        self.cursors.discard(s)
        return f"{self.choose.choice(['commit', 'commit', 'commit', 'abort'])} {s}"

    def over_cursor(self, s: int) -> str:
        if self.choose.random() < 0.5:
            return f"next {s} {self.choose.randint(1, 3)}"
        self.cursors.discard(s)
        return f"close {s}"

    def level(self, s: int) -> str:
        if self.savepoints[s] == 0 or self.savepoints[s] < 3 and self.choose.random() < 0.4:
            self.savepoints[s] += 1
            return f"savepoint {s}"
        if self.choose.random() < 0.3:
            self.savepoints[s] -= 1
            return f"release {s}"
        return f"rollbackto {s}"

    def write(self, s: int) -> str:
        key, value = self.choose.randint(1, 6), self.choose.randint(-99, 99)
        word = self.choose.choice(["insert", "update", "update", "delete"])
        if word == "delete":
            self.deleted.add(key)
            return f"delete {s} {key}"
        return f"{'update' if key in self.deleted else word} {s} {key} {value} 0 0 0 {self.choose.choice(['-', '6869'])}"

    def line(self) -> str:
        s, chance = self.choose.randrange(3), self.choose.random()
        if self.savepoints[s] < 0:
            self.savepoints[s] = 0
            return f"{self.choose.choice(self.begins)} {s}"
        if s in self.cursors:
            return self.over_cursor(s)
        if chance < 0.12:
            return self.end(s)
        if chance < 0.24:
            return self.level(s)
        if chance < 0.30:
            self.cursors.add(s)
            return self.choose.choice([f"openheap {s}", f"openindex {s} 0 1 9", f"openkeys {s} 2 5"])
        return f"get {s} {self.choose.randint(1, 6)}" if chance < 0.55 else self.write(s)


def judged(heapjudge: str, transcript: str, *words: str) -> List[str]:
    return subprocess.run([heapjudge, *words], input=transcript, capture_output=True, text=True, check=False).stdout.splitlines()


def main(heapjudge: str, programs: str = "", count: str = "200", first: str = "1") -> None:
    wrong, steps, refused, by_statement = 0, 0, 0, 0
    with server(programs) as command:
        for seed in range(int(first), int(first) + int(count)):
            kind = list(BEGINS)[seed % 3]
            schedule = Schedule(random.Random(seed), kind)
            transcript = recorded(command, [*FIRST, *(schedule.line() for _ in range(60))])
            verdict = judged(heapjudge, transcript)
            steps += transcript.count("> ")
            if not verdict or not verdict[0].startswith("allowed"):
                wrong += 1
                print(f"schedule {seed}, {kind}:", *verdict, sep="\n  ")
            if kind == "statements":
                by_statement += 1
                refused += judged(heapjudge, transcript, "--snapshot")[0].startswith("line")
    print(f"{count} schedules of {steps} steps: {wrong} answers that are not allowed. Of {by_statement} at READ COMMITTED {refused} are none of snapshots")
    sys.exit(1 if wrong else 0)


if __name__ == "__main__":
    main(*sys.argv[1:])
