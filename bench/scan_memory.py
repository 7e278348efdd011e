"""Measures the memory of a scan: loads a table, and then goes over all its rows with one cursor.

    python3 scan_memory.py HEAPSH [ROWS]

The cursor goes along the index by column 0, in which the rows stand in another order than by key, 100 rows at a time. Printed are the
peak memory before and after the scan, and its rows a second. The rows that come are counted, and have to come in order.
"""

import os
import subprocess
import sys
import tempfile
import time

AT_A_TIME = 100
ROWS_IN_A_SESSION = 1000


def value_of(key, rows):
    """Column 0: each number below the count once, far from the order of the keys."""
    return key * 7_919 % rows if rows % 7_919 else rows - 1 - key


def load(rows):
    yield "heap 65536 2144483648 0 3 64 1000\n"
    for first in range(0, rows, ROWS_IN_A_SESSION):
        yield "begin 0\n"
        for key in range(first, min(first + ROWS_IN_A_SESSION, rows)):
            yield f"insert 0 {key} {value_of(key, rows)} 0 0 0 -\n"
        yield "commit 0\n"
    yield "ids\n"


def scan(rows):
    yield "begin 0\n"
    yield f"openindex 0 1 0 {rows}\n"
    for _ in range(-(-rows // AT_A_TIME)):
        yield f"next 0 {AT_A_TIME}\n"
    yield f"next 0 {AT_A_TIME}\n"
    yield "close 0\n"


def send(process, lines):
    for line in lines:
        process.stdin.write(line.encode())
    process.stdin.flush()


def wait_for(path, end):
    """Waits until the answers end so."""
    while True:
        with open(path, "rb") as answers:
            answers.seek(max(0, os.path.getsize(path) - len(end)))
            if answers.read() == end:
                return
        time.sleep(0.05)


def peak(process):
    with open(f"/proc/{process.pid}/status") as status:
        return next(int(line.split()[1]) for line in status if line.startswith("VmHWM:"))


def check(path, rows):
    """Whether each row came once, in the order of the index."""
    before = -1
    with open(path, "rb") as answers:
        for line in answers:
            if line.startswith(b"row "):
                value = int(line.split()[2])
                if value != before + 1:
                    sys.exit(f"value {value} came after {before}")
                before = value
            elif line.startswith(b"error "):
                sys.exit(line.decode())
    if before + 1 != rows:
        sys.exit(f"{before + 1} rows came of {rows}")


def main():
    heapsh = os.path.abspath(sys.argv[1])
    rows = int(sys.argv[2]) if len(sys.argv) > 2 else 1_000_000
    with tempfile.TemporaryDirectory() as folder:
        path = os.path.join(folder, "answers")
        with open(path, "wb") as sink:
            process = subprocess.Popen([heapsh, "run"], stdin=subprocess.PIPE, stdout=sink)
            start = time.perf_counter()
            send(process, load(rows))
            wait_for(path, f"\nnext {3 + -(-rows // ROWS_IN_A_SESSION)} frozen_below 3\n".encode())
            loaded = time.perf_counter() - start
            before = peak(process)
            start = time.perf_counter()
            send(process, scan(rows))
            wait_for(path, b"\nend\nok\n")
            scanned = time.perf_counter() - start
            after = peak(process)
            process.stdin.close()
            process.wait()
        check(path, rows)
    print(f"rows                        {rows:12,}")
    print(f"rows a second, inserted     {rows / loaded:12,.0f}")
    print(f"rows a second, handed out   {rows / scanned:12,.0f}")
    print(f"peak memory before the scan {before:12,} KiB")
    print(f"peak memory after the scan  {after:12,} KiB")


if __name__ == "__main__":
    main()
