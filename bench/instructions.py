"""Counts the instructions of an operation of `heapsh run`, by valgrind's callgrind.

    python3 instructions.py HEAPSH [ROWS..]

For each workload and each number of rows: the instructions of a run with the operations, less those of a run that only loads the table,
by the number of operations. A transaction's begin and commit, and the reading and writing of lines, count with its operations.
"""

import os
import re
import subprocess
import sys
import tempfile

from compare import files
from workloads import WORKLOADS

SIZES = [1_000, 10_000, 100_000]
OPERATIONS = 2_000
SCANS = 500


def instructions(heapsh, script, folder):
    """The instructions of a run of this script."""
    found = os.path.join(folder, "found")
    command = ["valgrind", "-q", "--tool=callgrind", f"--callgrind-out-file={found}", heapsh, "run"]
    with open(script, "rb") as given:
        subprocess.run(command, stdin=given, stdout=subprocess.DEVNULL, check=True)
    with open(found, encoding="utf-8") as file:
        return int(re.search(r"^(?:totals|summary): (\d+)", file.read(), re.M)[1])


def main():
    heapsh = os.path.abspath(sys.argv[1])
    sizes = [int(word) for word in sys.argv[2:]] or SIZES
    print(f"| workload | {' | '.join(f'{rows:,} rows' for rows in sizes)} |")
    print("|---" + "|---:" * len(sizes) + "|")
    for name in WORKLOADS:
        count, taken = SCANS if name.startswith("index scans") else OPERATIONS, []
        for rows in sizes:
            with tempfile.TemporaryDirectory() as folder:
                loading, working = (instructions(heapsh, files(folder, name, rows, it)[0], folder) for it in (0, count))
                taken.append((working - loading) / count)
        print(f"| {name} | {' | '.join(f'{each:,.0f}' for each in taken)} |", flush=True)


if __name__ == "__main__":
    main()
