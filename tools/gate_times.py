#!/usr/bin/env python3
"""Says what a run of the gate costs: tools/gate_times.py [--notes FILE] [COMMAND ..]

Runs the command (`tools/test.sh` if none is given) at the top of the repository, looks at the processor time of each of the prover's
processes twice a second, and prints the table of bench/gate.md: of each crate the processor minutes of its proof (with its build), of its
tests and of its edits, and how many edits it has. Then come the longest chain of crates, each of which waits for the one before, and what
the whole run took by its own count. With --notes the minutes are added to those of the file, so that a table can be made of two runs: of
the gate, and of `tools/edits.py --all`.

A check by several jobs counts its copies twice in the table, and once in the whole. Where a kit's `rt ci` keeps what has passed, the table
has what was not kept. Needs Linux's /proc. Ends with the command's status.
"""
import argparse
import json
import os
import re
import subprocess
import sys
import threading
import time

import affected
import audit

KINDS = ("proof", "tests", "edits")
TICK = os.sysconf("SC_CLK_TCK")


def parent(number):
    """The number of a process's parent, 0 where there is none."""
    with open(f"/proc/{number}/stat", encoding="utf-8") as file:
        return int(file.read().rpartition(")")[2].split()[1])


def is_below(number, root):
    """Whether a process was begun by another, or by one that it began."""
    while number not in (0, root):
        number = parent(number)
    return number == root


def processes(root):
    """Each process of the prover that runs now below another: its number and birth, its crate and kind, and its seconds so far."""
    for number in filter(str.isdigit, os.listdir("/proc")):
        try:
            with open(f"/proc/{number}/cmdline", "rb") as file:
                words = file.read().decode(errors="replace").split("\0")
            if "--crate-name" not in words or not re.fullmatch(r"rattle.*", os.path.basename(words[0])) or not is_below(int(number), root):
                continue
            with open(f"/proc/{number}/stat", encoding="utf-8") as file:
                fields = file.read().rpartition(")")[2].split()
            folder = os.readlink(f"/proc/{number}/cwd")
        except OSError:
            continue
        crate = words[words.index("--crate-name") + 1]
        is_edit = any("by-function" in word for word in [folder, *words])
        kind = "edits" if is_edit else "tests" if "--test" in words else "proof"
        yield (number, fields[19]), (crate.removesuffix("_tests"), kind), sum(map(int, fields[11:15])) / TICK


def watched(command):
    """Runs a command, and answers its status, its processor seconds, and the minutes of each crate by kind."""
    seen, over = {}, threading.Event()

    def watch():
        while not over.is_set():
            for process, what, seconds in processes(started.pid):
                seen[process] = (what, seconds)
            over.wait(0.5)

    started = subprocess.Popen(command)
    watcher = threading.Thread(target=watch)
    watcher.start()
    _, status, used = os.wait4(started.pid, 0)
    over.set()
    watcher.join()
    table = {}
    for (crate, kind), seconds in seen.values():
        row = table.setdefault(crate, dict.fromkeys(KINDS, 0))
        row[kind] += seconds / 60
    return os.waitstatus_to_exitcode(status), used.ru_utime + used.ru_stime, table


def longest_chain(uses, minutes):
    """The crates that stand one above another and take longest to be proved so, the lowest first, with their minutes."""
    found = {}
    for crate in affected.above(uses, uses):
        below = max((found[low] for low in uses[crate] if low in found), default=(0, []))
        found[crate] = (below[0] + minutes.get(crate, 0), [*below[1], crate])
    return max(found.values())


def show(table):
    """Prints the table, and the longest chain."""
    cell = lambda minutes: f"{minutes:.1f}" if minutes >= 0.05 else ""
    print("\n| crate | proof | tests | edits | in all | how many edits |\n|---|---:|---:|---:|---:|---:|")
    for crate, row in sorted(table.items(), key=lambda it: -sum(it[1].values())):
        count = len(audit.edits_of(f"crates/{crate}")) or ""
        print(f"| `{crate}` | {' | '.join(cell(row[kind]) for kind in KINDS)} | {sum(row.values()):.1f} | {count} |")
    sums = [sum(row[kind] for row in table.values()) for kind in KINDS]
    print(f"| all | {' | '.join(map(cell, sums))} | {sum(sums):.1f} | {len(audit.edits_of('crates/*'))} |")
    took, chain = longest_chain(affected.crates(), {crate: row["proof"] for crate, row in table.items()})
    print(f"\nthe longest chain: {took:.1f} minutes, {', '.join(f'`{crate}`' for crate in chain)}")


def main():
    parser = argparse.ArgumentParser(description=__doc__, formatter_class=argparse.RawDescriptionHelpFormatter)
    parser.add_argument("--notes", help="a file that has the minutes of earlier runs; those of this one are added")
    parser.add_argument("command", nargs=argparse.REMAINDER)
    words = parser.parse_args()
    began, table = time.time(), {}
    if words.notes and os.path.exists(words.notes):
        table = json.loads(audit.text_of(words.notes))
    status, seconds, found = watched(words.command or ["tools/test.sh"])
    for crate, row in found.items():
        before = table.setdefault(crate, dict.fromkeys(KINDS, 0))
        table[crate] = {kind: before[kind] + row[kind] for kind in KINDS}
    if words.notes:
        with open(words.notes, "w", encoding="utf-8") as file:
            json.dump(table, file)
    show(table)
    print(f"the whole run: {seconds / 60:.1f} processor minutes (user and system), {(time.time() - began) / 60:.1f} by the clock")
    sys.exit(status)


main()
