"""Measures `heapsh run` and `sqlite3 :memory:` on the same steps, in turn.

    python3 measure.py HEAPSH [LINES]

Prints the lines a second of both (the best of five runs of each, since other work on the machine only slows a run), and the peak
memory of heapsh on a short script and on the long one.
"""

import os
import shutil
import subprocess
import sys
import tempfile
import time

RUNS = 5
SHORT = 10_000


def make(folder, lines):
    script = os.path.join(folder, f"{lines}.script")
    sql = os.path.join(folder, f"{lines}.sql")
    here = os.path.dirname(os.path.abspath(__file__))
    subprocess.run([sys.executable, os.path.join(here, "make_script.py"), str(lines), script, sql], check=True)
    return script, sql


def run(command, given, written):
    """Runs a command from file to file, and gives its seconds."""
    with open(given, "rb") as source, open(written, "wb") as sink:
        start = time.perf_counter()
        subprocess.run(command, stdin=source, stdout=sink, check=True)
        return time.perf_counter() - start


def peak_memory(command, given, written, answers):
    """The peak memory in KiB of a command that has written this many lines and waits for more input."""
    with open(given, "rb") as source, open(written, "wb") as sink:
        process = subprocess.Popen(command, stdin=subprocess.PIPE, stdout=sink)
        shutil.copyfileobj(source, process.stdin)
        process.stdin.flush()
        while count(written, lambda line: True) < answers:
            time.sleep(0.05)
        with open(f"/proc/{process.pid}/status") as status:
            peak = next(int(line.split()[1]) for line in status if line.startswith("VmHWM:"))
        process.stdin.close()
        process.wait()
    return peak


def count(path, test):
    with open(path, "rb") as lines:
        return sum(1 for line in lines if test(line))


def main():
    heapsh = os.path.abspath(sys.argv[1])
    lines = int(sys.argv[2]) if len(sys.argv) > 2 else 1_000_000
    with tempfile.TemporaryDirectory() as folder:
        script, sql = make(folder, lines)
        short, _ = make(folder, SHORT)
        answers = os.path.join(folder, "answers")
        rows = os.path.join(folder, "rows")
        count_of_lines = count(script, lambda line: True)
        ours, theirs = [], []
        for _ in range(RUNS):
            ours.append(run([heapsh, "run"], script, answers))
            theirs.append(run(["sqlite3", ":memory:"], sql, rows))
        found = count(answers, lambda line: line.startswith(b"row "))
        found_there = count(rows, lambda line: True)
        refused = count(answers, lambda line: line.startswith(b"error "))
        if found != found_there or refused != 0:
            sys.exit(f"heapsh found {found} rows and refused {refused} lines, sqlite3 found {found_there} rows")
        rate = count_of_lines / min(ours)
        rate_there = count_of_lines / min(theirs)
        memory = peak_memory([heapsh, "run"], script, answers, count_of_lines - 1)
        short_memory = peak_memory([heapsh, "run"], short, answers, count(short, lambda line: True) - 1)
        print(f"lines                 {count_of_lines}, of which {found} gets found a row")
        print(f"heapsh run            {rate:12,.0f} lines a second")
        print(f"sqlite3 :memory:      {rate_there:12,.0f} lines a second")
        print(f"ratio                 {rate / rate_there:12.1f}")
        print(f"peak memory of heapsh {short_memory:,} KiB at {SHORT:,} lines, {memory:,} KiB at {lines:,} lines")


if __name__ == "__main__":
    main()
