#!/usr/bin/env python3
"""Engines and judges that are broken by an edit of the prover's list: test_broken.py HEAPJUDGE HEAPSH [EDIT ..]

Each edit is one that a check refuses. The program is built with it, and nothing is proved (tools/unproved_shell.py). Of a broken engine the
answers to random lines are judged, until one is wrong; of a broken judge test_judge.py finds that it says something else. A row an edit: how
many lines it took, and by which rule. Run by hand: each edit costs a build of some 40 seconds.
"""
import os
import random
import re
import shutil
import subprocess
import sys
import tempfile
from typing import List

HERE = os.path.dirname(os.path.abspath(__file__))
ROOT = os.path.dirname(os.path.dirname(HERE))
sys.path += [HERE, f"{ROOT}/tools"]

import audit  # noqa: E402
import planted  # noqa: E402

# Most lines that an engine is asked, and how many of them one script has.
MOST, SCRIPT = 10_000, 400
ENGINES = [
    "visibility/by-function/sees_what_committed_later",
    "session_steps/by-function/statements_read_as_of_the_beginning",
    "session_steps/by-function/conflict_without_a_later_commit",
    "session_steps/by-function/second_updater_overwrites",
    "session_steps/by-function/rollback_leaves_ids_in_progress",
    "session_steps/by-function/cursor_reads_as_of_each_next",
    "session_steps/by-function/vacuums_as_if_nobody_were_open",
    "session_steps/audit/prunes_at_the_next_id",
    "session_steps/audit/release_drops_the_writes",
    "session_core/by-function/deadlock_for_every_busy",
    "index_lookup/by-function/newer_commit_forgets_deletions",
    "snapshot/by-function/rolls_back_everything",
]
JUDGES = [
    # accepts a row of a later commit
    "plain_history/audit/committed_reads_the_whole_history",
    # a Conflict where nobody committed
    "plain_history/audit/late_by_the_last_commit_it_reads",
    # forgets that a level was rolled back
    "plain_history/audit/rollback_keeps_the_level",
    # the end of a cursor with rows left
    "judge/by-function/ends_where_a_row_is_left",
]


def built(edit: str, program: str, room: str) -> str:
    """The program with the edit."""
    copy = f"{room}/copy"
    shutil.rmtree(copy, ignore_errors=True)
    shutil.copytree(f"{ROOT}/crates", f"{copy}/crates", ignore=shutil.ignore_patterns("out", "proofs", *audit.FOLDERS))
    shutil.copytree(f"{ROOT}/tools", f"{copy}/tools", ignore=shutil.ignore_patterns("__pycache__"))
    for name in ("HANDLES", "crates.txt"):
        shutil.copy(f"{ROOT}/{name}", copy)
    for path, old, new in audit.pairs_of(f"{ROOT}/crates/{edit}.edit"):
        file = f"{copy}/crates/{edit.split('/')[0]}/{path}"
        text = audit.text_of(file)
        if text.count(old) != 1:
            sys.exit(f"test_broken.py: {edit} is not in {path} once")
        with open(file, "w", encoding="utf-8") as out:
            out.write(text.replace(old, new))
    subprocess.run([sys.executable, f"{copy}/tools/unproved_shell.py", f"{room}/{program}", "--soon"], stdout=subprocess.DEVNULL, check=True)
    return f"{room}/{program}"


def lines_to_wrong(heapjudge: str, heapsh: str) -> str:
    """How many lines the engine was asked until an answer was wrong, and the rule; or that none was."""
    for script in range(MOST // SCRIPT):
        exchanges = planted.answered(heapsh, planted.steps(random.Random(script), SCRIPT), False)
        text = planted.transcript(planted.HEADING, exchanges)
        said = subprocess.run([heapjudge], input=text, capture_output=True, text=True, check=False).stdout
        wrong = re.match(r"line (\d+): (?s:.*)^rule (.*)$", said, re.M)
        if wrong:
            asked = sum(line.startswith("> ") for line in text.split("\n")[: int(wrong[1])])
            return f"{script * SCRIPT + asked} lines, {wrong[2]}"
        if not said.startswith("allowed") or len(exchanges) < SCRIPT:
            return f"dies after {script * SCRIPT + len(exchanges)} lines"
    return "no wrong answer"


def complaints(heapjudge: str, heapsh: str) -> str:
    """How many ends test_judge.py finds wrong of a broken judge."""
    ran = subprocess.run([sys.executable, f"{HERE}/test_judge.py", heapjudge, heapsh], capture_output=True, text=True, check=False)
    last = ran.stderr.strip().split("\n")[-1]
    return last.removeprefix("test_judge.py: ") if ran.returncode else "nothing wrong"


def main() -> None:
    if len(sys.argv) < 3:
        sys.exit("usage: test_broken.py HEAPJUDGE HEAPSH [EDIT ..]")
    heapjudge, heapsh = map(os.path.abspath, sys.argv[1:3])
    unseen: List[str] = []
    with tempfile.TemporaryDirectory() as room:
        for edit in sys.argv[3:] or [*ENGINES, *JUDGES]:
            if edit in JUDGES:
                says = complaints(built(edit, "heapjudge", room), heapsh)
            else:
                says = lines_to_wrong(heapjudge, built(edit, "heapsh", room))
            print(f"{edit}: {says}", flush=True)
            if says in ("no wrong answer", "nothing wrong"):
                unseen.append(edit)
    if unseen:
        sys.exit(f"test_broken.py: not seen: {', '.join(unseen)}")


if __name__ == "__main__":
    main()
