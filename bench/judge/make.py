"""Makes a transcript of a workload, by `heapsh run`: what `heapjudge` reads.

    python3 make.py HEAPSH WORKLOAD STEPS KEYS TRANSCRIPT

The workloads:

- `loads` inserts the keys in ascending order, and then reads them in any order.
- `writes` inserts the keys, and then eight sessions in turn read, update, delete and insert any of them, by snapshot or by statement.
- `cursors` inserts the keys, and then opens cursors over a hundred keys or values, and takes them by ten.
- `scans` inserts the keys, and then goes by a cursor over all of them, a hundred at a time.
- `long` inserts the keys in one transaction.
"""

import random
import subprocess
import sys

SESSIONS = 8
TRANSACTION = 20
HEADING = "heap 60000 2000000000 0 3 64 1000"


def row(key, value):
    return f"{key} {value} {-value} 0 {key} {'ab' * (key % 3) or '-'}"


def load(keys, size):
    """Inserts all keys, so many in a transaction."""
    for key in range(keys):
        if key % size == 0:
            yield "begin 0"
        yield f"insert 0 {row(key, key)}"
        if key % size == size - 1 or key == keys - 1:
            yield "commit 0"


def loads(rng, keys):
    while True:
        yield "begin 0"
        for _ in range(TRANSACTION):
            yield f"get 0 {rng.randrange(keys)}"
        yield "commit 0"


def writes(rng, keys):
    left = [0] * SESSIONS
    while True:
        session = rng.randrange(SESSIONS)
        if left[session] == 0:
            yield f"begin {session}" if rng.random() < 0.5 else f"beginrc {session}"
            left[session] = TRANSACTION
            continue
        left[session] -= 1
        if left[session] == 0:
            yield f"commit {session}"
            continue
        key, value = rng.randrange(keys), rng.randrange(1000)
        yield rng.choices(
            [f"get {session} {key}", f"update {session} {row(key, value)}", f"delete {session} {key}", f"insert {session} {row(key, value)}"],
            [10, 7, 1, 2],
        )[0]


def cursor(opening, nexts, rows):
    return ["begin 0", opening, *[f"next 0 {rows}"] * nexts, "close 0", "commit 0"]


def cursors(rng, keys):
    while True:
        low = rng.randrange(max(1, keys - 100))
        yield from cursor(f"{rng.choice(['openindex 0 0', 'openindex 0 1', 'openkeys 0'])} {low} {low + 99}", 11, 10)


def scans(rng, keys):
    while True:
        yield from cursor(rng.choice([f"openindex 0 1 0 {keys}", f"openkeys 0 0 {keys}"]), keys // 100 + 1, 100)


def steps_of(workload, steps, keys):
    rng = random.Random(steps)
    done = 0
    then = {"loads": loads, "long": loads, "writes": writes, "cursors": cursors, "scans": scans}
    for source in (load(keys, keys if workload == "long" else TRANSACTION), then[workload](rng, keys)):
        for line in source:
            if done == steps:
                return
            yield line
            done += 1


def make(heapsh, workload, steps, keys, path):
    asked = list(steps_of(workload, steps, keys))
    script = "\n".join([HEADING, *asked, ""])
    answers = iter(subprocess.run([heapsh, "run"], input=script.encode(), stdout=subprocess.PIPE, check=True).stdout.decode().splitlines())
    with open(path, "w", encoding="ascii") as out:
        print(HEADING, file=out)
        for line in asked:
            answer = next(answers)
            print("> " + line, answer, sep="\n", file=out)
            if answer.startswith(("rows ", "keys ")):
                for _ in range(int(answer.split()[1])):
                    print(next(answers), file=out)


if __name__ == "__main__":
    make(sys.argv[1], sys.argv[2], int(sys.argv[3]), int(sys.argv[4]), sys.argv[5])
