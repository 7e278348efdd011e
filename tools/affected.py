#!/usr/bin/env python3
"""Says which crates a change proves again, and what that costs: tools/affected.py CRATE [CRATE ..]

Run at the top of the repository. A change of a crate is proved, tested and tried again in that crate and in every crate above it: those
that name it in crates.txt, or name one that does. The minutes are those of the table in bench/gate.md, of one processor. Where a cell
there is empty the crate was not measured, or has no tests or edits; such a cell counts as nothing, and is shown as a dot.
"""
import re
import sys

KINDS = ("proof", "tests", "edits")


def crates():
    """Each crate of crates.txt with the names that it uses, in the order of the file."""
    found = {}
    with open("crates.txt", encoding="utf-8") as file:
        for line in file:
            name, colon, uses = line.split("#")[0].partition(":")
            if colon:
                found[name.split()[0]] = uses.split()
    return found


def above(uses, changed):
    """The changed crates and all that use one of them, those below first."""
    found, grew = set(changed), True
    while grew:
        more = {name for name, low in uses.items() if name not in found and found & set(low)}
        grew = bool(more)
        found |= more
    order = []
    while len(order) < len(found):
        order += [name for name in uses if name in found and name not in order and not (set(uses[name]) & found) - set(order)]
    return order


def minutes():
    """What bench/gate.md says of each crate: minutes by kind, none where a cell is empty."""
    found = {}
    with open("bench/gate.md", encoding="utf-8") as file:
        for line in file:
            cells = [cell.strip() for cell in line.strip().strip("|").split("|")]
            name = re.fullmatch(r"`(\w+)`", cells[0])
            if name and len(cells) > len(KINDS):
                found[name[1]] = [float(cell) if cell else None for cell in cells[1 : len(KINDS) + 1]]
    return found


def main():
    uses, costs = crates(), minutes()
    if not sys.argv[1:] or sys.argv[1] in ("-h", "--help"):
        print(__doc__.strip())
        sys.exit(0 if sys.argv[1:] else 2)
    unknown = [name for name in sys.argv[1:] if name not in uses]
    if unknown:
        sys.exit(f"no crate of crates.txt: {', '.join(unknown)}")
    found = above(uses, sys.argv[1:])
    width = max(len(name) for name in found)
    print(f"{'crate':{width}}  {'proof':>6} {'tests':>6} {'edits':>6}")
    sums = [0.0] * len(KINDS)
    for name in found:
        row = costs.get(name, [None] * len(KINDS))
        sums = [total + (cell or 0) for total, cell in zip(sums, row)]
        print(f"{name:{width}}  " + " ".join(f"{'.' if cell is None else format(cell, '.1f'):>6}" for cell in row))
    print(f"{'all':{width}}  " + " ".join(f"{total:6.1f}" for total in sums))
    print(f"\n{len(found)} of {len(uses)} crates, {sum(sums):.0f} processor minutes by the table of bench/gate.md")


if __name__ == "__main__":
    main()
