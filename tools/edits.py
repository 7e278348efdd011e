#!/usr/bin/env python3
"""Tries the wrong edits of crates/NAME/by-function/, each of which its crate's own contracts have to refuse:

    edits.py [NAME ..]      those of the crates (of these alone, if some are named) whose line in tests/edits.lock is old or missing
    edits.py --all [NAME ..]    those of all, whatever the lock says
    edits.py --check        tries none, and says which lines are old; exits 1 if any is
    edits.py --compile [NAME ..]    tries none, and says which are no code of crates without a fresh line, or of those named, audit/ too
    edits.py --gate         as the gate has it: the edits of each crate whose line is old, and ten of the others, drawn by the commit.
                            It leaves the lock as it is

An edit that was refused is refused again as long as all stays that its verdict rests on: the crate's sources, specs, proofs and edits, the
sources and specs of the crates below, and the toolchain's logic. A line of the lock has a sum of these for a crate, and the day on which
each of its edits was read as code, those of audit/ too, and then tried and refused.

An edit has a first line `fn: PATH`, or `impl: PATH` where it breaks a law of a type. A first check has to prove each of these as it
stands. Then the edits are made, many in one check where none stands in another's way, as tools/audit.py makes them. One is refused where
the check that has it does not prove its function, and not by form alone. (Of an edit of a definition form can't be told: the proof of a
law stands in lemmas, which are refused as a whole.) Exits 1 where one is let through; that crate's line is not written then.

The libraries below are those that `rt ci` or a check has left; `rt lib` makes what is missing.
"""
import argparse
import datetime
import glob
import hashlib
import os
import re
import shutil
import subprocess
import sys
import tempfile
import threading
from concurrent.futures import ThreadPoolExecutor, as_completed
from typing import Dict, List, Optional

import audit
import read_edits
from over_gate import PROVER, ROOT, below, is_made, used, words_for

LOCK = f"{ROOT}/tests/edits.lock"
HEAD = "# crate, sum of all that the verdicts on its edits rest on, day on which each was read, tried and refused: by tools/edits.py\n"
# how many edits of crates whose line is fresh the gate tries all the same
DRAWN = 10
# what an edit's check is made of, and what of the crates below it reads
PARTS = ("src", "specs", "proofs")
PARTS_BELOW = ("src", "specs")
MAKING = threading.Lock()


def files_in(crate: str, parts) -> List[str]:
    found = [file for part in parts for file in glob.glob(f"{ROOT}/crates/{crate}/{part}/**", recursive=True)]
    return sorted(filter(os.path.isfile, found))


def logic() -> str:
    """The toolchain's logic, whichever kit it comes with."""
    said = subprocess.run(["rt", "version"], capture_output=True, text=True, check=True).stdout
    return re.search(r"logic (\w+)", said)[1]


def sum_of(crate: str, uses: Dict[str, List[str]], of_logic: str) -> str:
    """A sum of all that the verdicts on a crate's edits rest on."""
    files = files_in(crate, [*PARTS, *read_edits.FOLDERS])
    for name in sorted(below(crate, uses)):
        files += files_in(name, PARTS_BELOW)
    whole = hashlib.sha256(f"{of_logic} {' '.join(sorted(uses[crate]))}\n".encode())
    for file in files:
        with open(file, "rb") as it:
            whole.update(f"{os.path.relpath(file, ROOT)} {hashlib.sha256(it.read()).hexdigest()}\n".encode())
    return whole.hexdigest()[:32]


def locked() -> Dict[str, List[str]]:
    """Of each crate in the lock its sum and its day."""
    text = audit.text_of(LOCK) if os.path.exists(LOCK) else ""
    rows = [line.split() for line in text.split("\n") if line and not line.startswith("#")]
    return {crate: [found, day] for crate, found, day in rows}


def write_lock(rows: Dict[str, List[str]], crates: List[str]) -> None:
    """Writes the lines of crates that have edits, in the order of crates.txt."""
    with open(LOCK, "w", encoding="utf-8") as file:
        file.write(HEAD + "".join(f"{crate} {' '.join(rows[crate])}\n" for crate in crates if crate in rows))


def function_of(path: str) -> str:
    """The function that an edit is to break, or the impl."""
    found = re.findall(r"^(?:fn|impl): (\S+)$", audit.text_of(path), re.M)
    if len(found) != 1:
        sys.exit(f"edits.py: {path} has to name one function")
    return found[0]


def edits_in(crate: str) -> List[dict]:
    """The crate's edits, as tools/audit.py has them, each with its function."""
    files = audit.edits_of(f"{ROOT}/crates/{crate}", "by-function")
    name = lambda file: f"{crate}/{os.path.basename(file).removesuffix('.edit')}"
    is_impl = lambda file: audit.text_of(file).startswith("impl: ")
    found = lambda it: {"name": name(it), "function": function_of(it), "is_impl": is_impl(it), "pairs": audit.pairs_of(it)}
    return [{**found(it), "of": None, "tries": 0} for it in files]


def make_libraries(crate: str, uses: Dict[str, List[str]]) -> None:
    """Has `rt lib` prove each library below a crate that nothing has left as its sources stand."""
    with MAKING:
        for name in below(crate, uses):
            if not is_made(name):
                subprocess.run(["rt", "lib"], cwd=f"{ROOT}/crates/{name}", stdin=subprocess.DEVNULL, stdout=subprocess.DEVNULL, check=True)


def said_of(crate: str, folder: str, edits: List[dict], texts: Dict[str, str]) -> audit.Said:
    """What the prover says of the edits' functions, with these texts in the crate's folder. It goes on from what earlier checks there kept."""
    only = [word for function in sorted({edit["function"] for edit in edits}) for word in ("--only", function)]
    if any(edit["is_impl"] for edit in edits):
        # (no check of a function looks at the laws of a type)
        only = []
    words = [PROVER, "check", *words_for(crate, used()), "--jobs", "1", "--incremental", f"{folder}/kept", *only]
    return audit.try_round(folder, crate, texts, words)


def fault_of(edit: dict, said: audit.Said, is_alone: bool) -> Optional[str]:
    """Why an edit counts as let through by a check that has it: nothing where it is refused, None where one with it alone has to tell."""
    # (a check that says nothing of any function was ended, or the libraries below moved while it ran)
    verdict = said.functions.get(edit["function"], "there is no such function" if said.functions else "the check gave no verdict")
    if verdict.startswith(("not proved", "no proof")) and not verdict.startswith(audit.NOT_REACHED):
        turns_code = all(file.startswith("src/") for file, _, _ in edit["pairs"])
        return "refused by form alone" if turns_code and edit["function"] in said.by_form else ""
    if not is_alone:
        return None
    return f"it is no code: {said.unread[0].strip()}" if said.unread else f"{edit['function']}: {verdict}"


def faults_in_round(crate: str, folder: str, todo: List[dict], reached: Dict[str, set]) -> Dict[str, str]:
    """What one check tells of the edits that are made in it together."""
    this = audit.next_round(todo, reached)
    texts, made = audit.changed(folder, this)
    if not made:
        return {this[0]["name"]: "a text is not there once"}
    said, faults = said_of(crate, folder, made, texts), {}
    for edit in made:
        fault = fault_of(edit, said, len(made) == 1)
        if fault is not None:
            faults[edit["name"]] = fault
        # what this check does not tell, one with this edit alone will
        edit["tries"], edit["of"] = edit["tries"] + 1, None
    return faults


def faults_of(crate: str, todo: List[dict]) -> Dict[str, str]:
    """Edits of a crate, each with why it counts as let through, if it does."""
    make_libraries(crate, used())
    with tempfile.TemporaryDirectory(prefix="by-function-") as room:
        folder = f"{room}/{crate}"
        for part in filter(lambda part: os.path.isdir(f"{ROOT}/crates/{crate}/{part}"), PARTS):
            shutil.copytree(f"{ROOT}/crates/{crate}/{part}", f"{folder}/{part}")
        plain, reached = said_of(crate, folder, todo, {}).functions, audit.reached_in(folder)
        is_proved = lambda edit: plain.get(edit["function"], "absent").startswith("proved")
        faults = {edit["name"]: "it is not proved without the edit" for edit in todo if not is_proved(edit)}
        for edit in todo:
            places = [audit.function_at(folder, file, old, set(plain)) for file, old, _ in edit["pairs"]]
            # (one that changes something else than its function is tried alone)
            edit["of"] = {edit["function"]} if all(place == {edit["function"]} for place in places) else None
        while len(faults) < len(todo):
            faults.update(faults_in_round(crate, folder, [edit for edit in todo if edit["name"] not in faults], reached))
    return faults


def drawn(edits: List[dict]) -> List[dict]:
    """A few of the edits, others for each commit."""
    said = subprocess.run(["git", "rev-parse", "HEAD"], cwd=ROOT, capture_output=True, text=True, check=False).stdout.strip()
    lot = lambda edit: hashlib.sha256(f"{said} {edit['name']}".encode()).digest()
    return sorted(edits, key=lot)[:DRAWN]


def try_all(todo: Dict[str, List[dict]], passed) -> Dict[str, str]:
    """Tries the edits of each crate, the crates side by side, and tells of each crate as it comes whether all its edits were refused."""
    faults: Dict[str, str] = {}
    with ThreadPoolExecutor(len(os.sched_getaffinity(0))) as pool:
        # (the dearest stand last in crates.txt)
        begun = {pool.submit(faults_of, crate, edits): crate for crate, edits in reversed(todo.items())}
        for done in as_completed(begun):
            found = done.result()
            faults.update(found)
            if not any(found.values()):
                passed(begun[done])
    return faults


def main() -> None:
    parser = argparse.ArgumentParser(description=__doc__, formatter_class=argparse.RawDescriptionHelpFormatter)
    way = parser.add_mutually_exclusive_group()
    way.add_argument("--all", action="store_true", help="try the edits of crates whose line is fresh too")
    way.add_argument("--check", action="store_true", help="say which lines are old, and try none")
    way.add_argument("--compile", action="store_true", help="say which edits are no code, and try none")
    way.add_argument("--gate", action="store_true", help="try those of old lines and a few others, and leave the lock")
    parser.add_argument("names", nargs="*", help="crates; all that have edits, if none is named")
    words = parser.parse_args()
    uses, of_logic = used(), logic()
    crates = [crate for crate in uses if audit.edits_of(f"{ROOT}/crates/{crate}", "by-function")]
    sums, rows = {crate: sum_of(crate, uses, of_logic) for crate in crates}, locked()
    old = [crate for crate in crates if rows.get(crate, [""])[0] != sums[crate]]
    names = f"; old: {' '.join(old)}" if old else ""
    print(f"edits.py: {len(crates) - len(old)} of {len(crates)} lines of tests/edits.lock are fresh{names}", flush=True)
    if words.check:
        sys.exit(1 if old else 0)
    if not words.gate:
        # (a crate with edits in audit/ alone has no line)
        read = words.names or [crate for crate in uses if words.all or crate in old or crate not in crates]
        if not words.compile:
            # (the edits of definitions are read over made libraries)
            for crate in filter(crates.__contains__, read):
                make_libraries(crate, uses)
        faults = read_edits.read_all(read)
        if faults or words.compile:
            sys.exit(1 if faults else 0)

    wanted = [crate for crate in crates if not words.names or crate in words.names]
    todo = {crate: edits_in(crate) for crate in wanted if words.all or crate in old}
    if words.gate:
        for edit in drawn([edit for crate in crates if crate not in old for edit in edits_in(crate)]):
            todo.setdefault(edit["name"].partition("/")[0], []).append(edit)

    def passed(crate: str) -> None:
        if not words.gate:
            rows[crate] = [sums[crate], datetime.date.today().isoformat()]
            write_lock(rows, crates)

    faults = try_all(todo, passed)
    let_through = [f"{edit}: {fault}" for edit, fault in sorted(faults.items()) if fault]
    refused = len(faults) - len(let_through)
    print("\n".join([*let_through, f"edits.py: of {len(faults)} edits {refused} are refused by functions that are proved without them"]))
    sys.exit(1 if let_through else 0)


if __name__ == "__main__":
    main()
