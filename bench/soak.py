"""Lets `heapsh run` work for a long time, and looks at its memory.

    python3 soak.py HEAPSH [LINES]

Four sessions insert, update, delete, set savepoints, roll back and commit rows of a thousand keys, with an index on two columns, while
vacuums of both modes go on step by step between their lines. Rows, ids and entries are bounded: ids are forgotten by the aggressive
vacuums, since none is given 20,000 numbers away from the oldest. Prints the peak memory after a tenth of the lines and after all of
them, how many of each answer there were, and the lines a second.
"""

import collections
import os
import random
import subprocess
import sys
import threading
import time

LINES = 10_000_000
KEYS = 1000
SESSIONS = 4
VACUUM_EVERY = 7
HEADING = "heap 200 20000 1000 4294900000 64 1100\n"


def session_lines(rng):
    """The lines of the sessions, without end."""
    left = [0] * SESSIONS
    while True:
        s = rng.randrange(SESSIONS)
        if left[s] == 0:
            yield f"begin {s}\n"
            left[s] = rng.randrange(1, 12)
            continue
        left[s] -= 1
        if left[s] == 0:
            yield f"commit {s}\n" if rng.random() < 0.8 else f"abort {s}\n"
            continue
        key, value = rng.randrange(KEYS), rng.randrange(50)
        body = "ab" * rng.randrange(40) or "-"
        yield rng.choice([
            f"insert {s} {key} {value} {-value} 0 {key} {body}\n",
            f"update {s} {key} {value} 1 0 {key} {body}\n",
            f"update {s} {key} 7 7 {value} {key} {body}\n",
            f"delete {s} {key}\n",
            f"get {s} {key}\n",
            f"savepoint {s}\n",
            f"rollbackto {s}\n",
            f"release {s}\n",
        ])


def lines_of(count):
    rng = random.Random(count)
    sessions = session_lines(rng)
    vacuums = 0
    for number in range(count):
        if number % VACUUM_EVERY > 0:
            yield next(sessions)
        elif number % (VACUUM_EVERY * 1000) == 0:
            vacuums += 1
            yield "vacuum cancel\n"
        elif number % (VACUUM_EVERY * 1000) == VACUUM_EVERY:
            yield "vacuum begin aggressive\n" if vacuums % 2 else "vacuum begin normal\n"
        else:
            yield "vacuum step\n"


def peak(process):
    with open(f"/proc/{process.pid}/status") as status:
        return next(int(line.split()[1]) for line in status if line.startswith("VmHWM:"))


def tally(stream, counts):
    for line in stream:
        word, _, rest = line.partition(b" ")
        counts[rest.strip() if word == b"error" else word.strip()] += 1


def main():
    heapsh = os.path.abspath(sys.argv[1])
    count = int(sys.argv[2]) if len(sys.argv) > 2 else LINES
    process = subprocess.Popen([heapsh, "run"], stdin=subprocess.PIPE, stdout=subprocess.PIPE)
    counts = collections.Counter()
    reader = threading.Thread(target=tally, args=(process.stdout, counts))
    reader.start()
    start = time.perf_counter()
    process.stdin.write(HEADING.encode())
    for number, line in enumerate(lines_of(count), 1):
        process.stdin.write(line.encode())
        if number in (count // 10, count):
            process.stdin.flush()
            time.sleep(0.5)
            print(f"after {number:,} lines: {peak(process):,} KiB at most", flush=True)
    process.stdin.close()
    reader.join()
    print(f"status {process.wait()}, {count / (time.perf_counter() - start):,.0f} lines a second")
    print(", ".join(f"{answer.decode()} {number:,}" for answer, number in sorted(counts.items()) if number > count // 100_000))


if __name__ == "__main__":
    main()
