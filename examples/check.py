"""Runs each script of this folder, and compares its answers with those on its page: by heapsh the scripts, by heapview those with looks.

    python3 examples/check.py HEAPSH
    python3 examples/check.py HEAPVIEW

A page has a table with a row for each line of its script, and for each further line of an answer. A row may stand for several lines,
`and N times more: ..`, in which K counts as the row says. BODY stands for a body of a thousand bytes, each of which is 0.
"""

import glob
import os
import re
import subprocess
import sys

HEADING = "| line of the script | answer | why |"
BODY = "00" * 1000


def quoted(cell):
    """What stands between backticks in a cell."""
    return [words.replace("BODY", BODY) for words in re.findall(r"`([^`]*)`", cell)]


def repeated(line, answer, why):
    """The lines of a row that stands for several rounds, with their answers."""
    rounds = int(re.match(r"and (\d+) times more: ", line).group(1))
    first = int(re.search(r"with K from (\d+) to", why).group(1))
    for k in range(first, first + rounds):
        for asked in quoted(line):
            yield asked.replace("K", str(k)), quoted(answer)


def rows(page):
    """The lines of the page's script, each with the lines of its answer that stand in its row."""
    with open(page) as text:
        table = text.read().split(HEADING)[1].strip().splitlines()[1:]
    for row in table:
        if not row.startswith("|"):
            return
        line, answer, why = (cell.strip() for cell in row.strip("|").split("|", 2))
        if line.startswith("and "):
            yield from repeated(line, answer, why)
        else:
            yield "".join(quoted(line)), quoted(answer)


def fault(program, path):
    """What is wrong with a script's page, if anything is."""
    page = os.path.splitext(path)[0] + ".md"
    if not os.path.exists(page):
        return "there is no page"
    told = list(rows(page))
    with open(path) as script:
        lines = script.read().splitlines()
    if [line for line, _ in told if line] != lines:
        return "the page's lines are not those of the script"
    with open(path, "rb") as script:
        answers = subprocess.run([program, "run"], stdin=script, stdout=subprocess.PIPE, check=True).stdout.decode().splitlines()
    expected = [line for _, answer in told for line in answer]
    for number, (there, here) in enumerate(zip(answers, expected), 1):
        if there != here:
            return f"answer {number} is {there!r}, and {here!r} on the page"
    if len(answers) != len(expected):
        return f"there are {len(answers)} lines of answers, and {len(expected)} on the page"
    return None


def main():
    program = os.path.abspath(sys.argv[1])
    kind = "*.view" if os.path.basename(program) == "heapview" else "*.script"
    scripts = sorted(glob.glob(os.path.join(os.path.dirname(os.path.abspath(__file__)), kind)))
    faults = {path: wrong for path in scripts if (wrong := fault(program, path))}
    for path, wrong in faults.items():
        print(f"{os.path.basename(path)}: {wrong}")
    print(f"{len(scripts) - len(faults)} pages agree with their scripts, {len(faults)} don't")
    sys.exit(1 if faults else 0)


if __name__ == "__main__":
    main()
