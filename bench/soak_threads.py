"""Lets eight workers of `heapsh threads` do many lines, and one thread of `heapsh run` the lines of their journal again.

    python3 soak_threads.py HEAPSH [LINES]

Seven workers, each with a session of its own, by snapshot or by statement, write a few keys that all of them want, waiting for one
another; so there are conflicts and rings of waits. The eighth prunes pages and vacuums in both modes. Looks whether `heapsh run`, given
the journal's lines, answers as the journal does. Prints how many answers of each kind there were, and the peak memory of both.
"""

import collections
import filecmp
import multiprocessing
import os
import random
import subprocess
import sys
import tempfile

LINES = 1_000_000
SESSIONS = 7
KEYS = 8
PAGES = 40
HEADING = f"heap {PAGES} 200000 1000 4294900000 64 1100\n"


def transaction(rng, s):
    """The lines of a transaction, each with whether it waits."""
    yield f"begin {s}" if rng.random() < 0.5 else f"beginrc {s}"
    for _ in range(rng.randrange(1, 8)):
        key, value = rng.randrange(KEYS), rng.randrange(50)
        yield rng.choice([
            f"wait insert {s} {key} {value} {-value} 0 {key} {'ab' * rng.randrange(40) or '-'}",
            f"wait update {s} {key} {value} 1 0 {key} -",
            f"wait update {s} {key} 7 7 {value} {key} -",
            f"wait delete {s} {key}",
            f"update {s} {key} 7 7 {value} {key} -",
            f"get {s} {key}",
            f"savepoint {s}",
            f"rollbackto {s}",
        ])
    yield f"commit {s}" if rng.random() < 0.8 else f"abort {s}"


def lines_of_a_session(rng, s, count):
    """So many lines, of which the last ends the session: nobody waits for it then."""
    lines = []
    while len(lines) < count - 10:
        lines.extend(transaction(rng, s))
    return lines


def lines_of_the_cleaner(rng, count):
    lines = []
    while len(lines) < count:
        lines.append(rng.choice(["vacuum begin normal", "vacuum begin aggressive"]))
        lines.extend(["vacuum step"] * rng.randrange(4 * PAGES))
        lines.extend(f"prune {rng.randrange(PAGES)}" for _ in range(4))
        if rng.random() < 0.1:
            lines.append("vacuum cancel")
    return lines[:count]


def write_script(path, count):
    rng = random.Random(count)
    lists = [lines_of_a_session(rng, s, count // (SESSIONS + 1)) for s in range(SESSIONS)]
    lists.append(lines_of_the_cleaner(rng, count - sum(map(len, lists))))
    with open(path, "w", encoding="ascii") as script:
        script.write(HEADING)
        for worker, lines in enumerate(lists):
            script.writelines(f"@{worker} {line}\n" for line in lines)


def run(heapsh, how, script, answers):
    """Runs the program, and tells its peak memory in KiB."""
    with open(script, "rb") as lines, open(answers, "wb") as out:
        process = subprocess.Popen([heapsh, how], stdin=lines, stdout=out)
        _, status, usage = os.wait4(process.pid, 0)
    if status != 0:
        sys.exit(f"soak_threads.py: heapsh {how} ended with {os.waitstatus_to_exitcode(status)}")
    return usage.ru_maxrss


def split_journal(journal, script, answers):
    """Writes the journal's lines as a script of one thread, and its answers by themselves. Counts the answers."""
    counts = collections.Counter()
    with open(journal, "rb") as lines, open(script, "wb") as steps, open(answers, "wb") as replies:
        steps.write(HEADING.encode())
        for line in lines:
            if line.startswith(b"> "):
                steps.write(line[2:])
                continue
            replies.write(line)
            words = line.split()
            counts[b" ".join(words[1:3] if words[0] == b"error" else words[:1])] += 1
    return counts


def main():
    heapsh = os.path.abspath(sys.argv[1])
    count = int(sys.argv[2]) if len(sys.argv) > 2 else LINES
    with tempfile.TemporaryDirectory() as folder:
        lists, journal, steps, noted, again = (os.path.join(folder, name) for name in ("lists", "journal", "steps", "noted", "again"))
        # in a process of its own, for what this one takes would count as its children's too
        writer = multiprocessing.Process(target=write_script, args=(lists, count))
        writer.start()
        writer.join()
        peak = run(heapsh, "threads", lists, journal)
        counts = split_journal(journal, steps, noted)
        peak_again = run(heapsh, "run", steps, again)
        if not filecmp.cmp(noted, again, shallow=False):
            sys.exit("soak_threads.py: one thread answers otherwise than the journal says")
    print(f"{count:,} lines, {sum(counts.values()):,} entries, one thread answers the same")
    print(f"at most {peak:,} KiB by threads, {peak_again:,} KiB by one thread")
    print(", ".join(f"{answer.decode()} {number:,}" for answer, number in sorted(counts.items())))


if __name__ == "__main__":
    main()
