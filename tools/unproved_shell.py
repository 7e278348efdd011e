#!/usr/bin/env python3
"""Makes a program that nothing has proved, from the sources as they stand: tools/unproved_shell.py TO [--soon]

It is the crate that TO is named like, as bin/heapsh. It stays, so each script that it runs takes no time. With --soon it is compiled in half
the time, and is slower. How: tools/unproved.py.
"""
import os
import sys
import tempfile

import unproved


def make(copy: str, program: str, to: str, work: str, way: unproved.Way) -> None:
    """Makes the program of a copy of the repository."""
    module = unproved.without_checks(unproved.module_of(f"{copy}/crates/{program}", work))
    unproved.link(unproved.compiled(module, work, way), to, work)


def main() -> None:
    if len(sys.argv) < 2 or sys.argv[2:] not in ([], ["--soon"]):
        sys.exit("usage: tools/unproved_shell.py TO [--soon]")
    program = os.path.basename(sys.argv[1])
    if not os.path.exists(f"{unproved.ROOT}/crates/{program}/src/main.rt"):
        sys.exit(f"unproved_shell.py: there is no program {program}")
    with tempfile.TemporaryDirectory() as work:
        unproved.copied(f"{work}/copy")
        make(f"{work}/copy", program, sys.argv[1], work, unproved.way_of(sys.argv[2:]))
    print(f"unproved_shell.py: {sys.argv[1]} is a program that nothing has proved")


if __name__ == "__main__":
    main()
