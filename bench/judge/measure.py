"""Measures how fast `heapjudge` judges.

    python3 measure.py HEAPSH HEAPJUDGE [WORKLOAD STEPS KEYS ..]

Makes a transcript of each workload (make.py), and prints how many steps were judged, in how many seconds of processor time, how many that
is in a second, and the most memory it had. `soak STEPS` is the journal of eight workers (../soak_threads.py), as `heapsh threads` writes
it.
"""

import multiprocessing
import os
import subprocess
import sys
import tempfile

import make

sys.path.insert(0, os.path.dirname(os.path.dirname(os.path.abspath(__file__))))
import soak_threads

CASES = [
    ("loads", 10_000, 5_000),
    ("loads", 100_000, 50_000),
    ("loads", 1_000_000, 500_000),
    ("writes", 10_000, 2_500),
    ("writes", 100_000, 25_000),
    ("writes", 1_000_000, 250_000),
    ("writes", 1_100_000, 1_000_000),
    ("cursors", 20_000, 100),
    ("cursors", 20_000, 1_000),
    ("cursors", 20_000, 10_000),
    ("scans", 12_000, 1_000),
    ("long", 4_000, 4_000),
    ("long", 16_000, 16_000),
    ("soak", 100_000, 8),
    ("soak", 1_000_000, 8),
]


def journal(heapsh, steps, path):
    lists = path + ".lists"
    soak_threads.write_script(lists, steps)
    with open(lists, "rb") as lines, open(path, "wb") as out:
        out.write(soak_threads.HEADING.encode())
        out.flush()
        subprocess.run([heapsh, "threads"], stdin=lines, stdout=out, check=True)


def judge(heapjudge, path):
    """How many steps, the processor's seconds, and the memory in MB."""
    with open(path, "rb") as transcript:
        process = subprocess.Popen([heapjudge], stdin=transcript, stdout=subprocess.PIPE)
        said = process.stdout.read().decode()
        _, status, usage = os.wait4(process.pid, 0)
    if status != 0:
        sys.exit(f"measure.py: heapjudge ended with {os.waitstatus_to_exitcode(status)}: {said}")
    return int(said.split()[1].rstrip(",")), usage.ru_utime + usage.ru_stime, usage.ru_maxrss / 1024


def main():
    heapsh, heapjudge = os.path.abspath(sys.argv[1]), os.path.abspath(sys.argv[2])
    asked = sys.argv[3:]
    cases = [(asked[i], int(asked[i + 1]), int(asked[i + 2])) for i in range(0, len(asked), 3)] or CASES
    print("| workload | keys | steps | seconds | steps a second | MB |\n|---|---:|---:|---:|---:|---:|")
    with tempfile.TemporaryDirectory() as folder:
        path = os.path.join(folder, "transcript")
        for workload, steps, keys in cases:
            # in a process of its own, for the memory of this one would count as that of its children
            words = (heapsh, steps, path) if workload == "soak" else (heapsh, workload, steps, keys, path)
            maker = multiprocessing.Process(target=journal if workload == "soak" else make.make, args=words)
            maker.start()
            maker.join()
            judged, seconds, memory = judge(heapjudge, path)
            print(f"| {workload} | {keys:,} | {judged:,} | {seconds:.2f} | {judged / seconds:,.0f} | {memory:.0f} |", flush=True)


if __name__ == "__main__":
    main()
