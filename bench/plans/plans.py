#!/usr/bin/env python3
"""Times the plans of many pages on one processor and on two: bench/plans/plans.py [PAGES [ROUNDS]]

main.txt beside it is compiled as a program of the repository, in a copy and without a proof (tools/unproved.py). Of each number of
processors it runs three times; the time of a run without rounds, which only loads the pages, is taken off. It prints the median of the
milliseconds that a round took.
"""
import os
import pathlib
import statistics
import subprocess
import sys
import tempfile
import time

HERE = pathlib.Path(__file__).resolve().parent
sys.path.insert(0, str(HERE.parents[1] / "tools"))
import unproved  # noqa: E402
import unproved_shell  # noqa: E402


def compiled(work: str) -> str:
    """The program, made in a copy of the repository that has it as a crate."""
    unproved.copied(f"{work}/copy")
    os.makedirs(f"{work}/copy/crates/plans/src")
    unproved.write(f"{work}/copy/crates/plans/src/main.rt", unproved.read(str(HERE / "main.txt")))
    with open(f"{work}/copy/crates.txt", "a", encoding="utf-8") as file:
        file.write("plans: page_plans session_core\n")
    unproved_shell.make(f"{work}/copy", "plans", f"{work}/bin/plans", work, unproved.AS_PROVED)
    return f"{work}/bin/plans"


def seconds(program: str, pages: int, rounds: int, processors: int) -> float:
    """How long a run takes that may use the first so many processors."""
    began = time.monotonic()
    subprocess.run(["taskset", "-c", f"0-{processors - 1}", program, str(pages), str(rounds)], check=True, stdout=subprocess.DEVNULL)
    return time.monotonic() - began


def main() -> None:
    pages, rounds = [*map(int, sys.argv[1:]), *[9000, 200][len(sys.argv) - 1 :]]
    with tempfile.TemporaryDirectory() as work:
        program = compiled(work)
        for processors in (1, 2):
            taken = [seconds(program, pages, rounds, processors) - seconds(program, pages, 0, processors) for _ in range(3)]
            print(f"{processors}: {statistics.median(taken) / rounds * 1000:.1f} milliseconds a round")


if __name__ == "__main__":
    main()
