#!/usr/bin/env python3
"""Compiles `sandpiper_c` over the libraries that `rt ci` has just proved, and has left in crates/NAME/out/rlib:
crates/sandpiper_c/out/libsandpiper_c.a. Run at the top as tools/over_gate.py archive.

`rt lib` would prove all those libraries again, since it takes one only with a stamp that it wrote itself. Here the prover is called over
them as `rt ci` calls it for a program: it takes what the check of `sandpiper_c` has left (tools/ci.py), if it reads the same, and proves it
again only where that is not there. Exits 3 where `rt ci` has left no libraries, or they are older than their sources. What calls the prover
so has its words from here.
"""
import glob
import os
import shutil
import subprocess
import sys
from typing import Dict, List, Optional

import audit

ROOT = os.path.dirname(os.path.dirname(os.path.abspath(__file__)))
KIT = os.path.dirname(os.path.dirname(os.path.realpath(shutil.which("rt") or sys.exit("over_gate.py: rt is missing"))))
PROVER = f"{KIT}/bin/rattle"
ARCHIVE = f"{ROOT}/crates/sandpiper_c/out/libsandpiper_c.a"
NONE_LEFT = 3
# what an edit's check is made of
PARTS = ("src", "specs", "proofs")


def used() -> Dict[str, List[str]]:
    """The libraries that each crate of crates.txt names."""
    lines = [line.partition("#")[0] for line in audit.text_of(f"{ROOT}/crates.txt").split("\n")]
    heads = [line.partition(":") for line in lines if ":" in line]
    return {head.split()[0]: names.split() for head, _, names in heads}


def below(crate: str, uses: Dict[str, List[str]], found: Optional[Dict[str, None]] = None) -> List[str]:
    """The repository's libraries below a crate, the lowest first."""
    found = {} if found is None else found
    for name in uses[crate]:
        if name in uses and name not in found:
            below(name, uses, found)
            found[name] = None
    return list(found)


def library(name: str) -> str:
    return f"{ROOT}/crates/{name}/out/rlib/{name}.rlib"


def time_of(name: str) -> float:
    """When the last of a library's sources was written."""
    files = [file for part in PARTS for file in glob.glob(f"{ROOT}/crates/{name}/{part}/**", recursive=True)]
    return max(os.path.getmtime(file) for file in [*filter(os.path.isfile, files), f"{ROOT}/crates.txt"])


def is_made(name: str, folder: Optional[str] = None) -> bool:
    """Whether a run has left this library, or that folder of the crate, of the sources as they stand. Where `rt ci` keeps what it proved it
    gives old files another name, which their change times tell: the gate says since when it runs."""
    made, began = f"{folder or library(name)}/format", os.environ.get("GATE_BEGAN")
    if not os.path.exists(made):
        return False
    found = os.stat(made)
    return time_of(name) < float(began) <= found.st_ctime if began else time_of(name) < found.st_mtime


def is_left(name: str) -> bool:
    """Whether that run was `rt ci`. A library with a stamp is `rt lib`'s, which knows what it is worth."""
    return is_made(name) and not os.path.exists(f"{os.path.dirname(library(name))}/stamp")


def words_for(crate: str, uses: Dict[str, List[str]]) -> List[str]:
    """What the prover is told of a crate: its libraries, the toolchain's and the repository's, and the logic."""
    words = ["--crate-name", crate, "src/lib.rt", "-L", f"dependency={KIT}/rlibs"]
    for name in ["std", *uses[crate]]:
        words += ["--extern", f"{name}={library(name) if name in uses else f'{KIT}/rlibs/{name}.rlib'}"]
    for name in below(crate, uses):
        words += ["-L", f"dependency={os.path.dirname(library(name))}"]
    return [*words, "--antt-project", f"{KIT}/rattle/logic/antt-project.json", "--logic-built", f"{KIT}/logic_built"]


def how_proved(words: List[str]) -> List[str]:
    """The prover's words for `sandpiper_c`, by which it takes what the check has left; else those by which it proves it."""
    checked = f"{ROOT}/crates/sandpiper_c/out/checked"
    if not is_made("sandpiper_c", checked):
        return [*words, "--jobs", str(len(os.sched_getaffinity(0)))]
    at = words.index("--logic-built")
    return [*words[:at], *words[at + 2 :], "--crate-checked", checked]


def archive() -> int:
    uses = used()
    older = [name for name in below("sandpiper_c", uses) if not is_left(name)]
    if older:
        print(f"over_gate.py: not left by rt ci as it stands: {', '.join(older)}")
        return NONE_LEFT
    words = [PROVER, "build", *how_proved(words_for("sandpiper_c", uses)), "--crate-type", "staticlib"]
    words += ["--toolchain", f"{KIT}/toolchain", "--backend", "llvm", "-o", ARCHIVE]
    return subprocess.run(words, cwd=f"{ROOT}/crates/sandpiper_c", stdin=subprocess.DEVNULL, check=False).returncode


def main() -> None:
    words = sys.argv[1:]
    if words != ["archive"]:
        sys.exit("usage: over_gate.py archive")
    sys.exit(archive())


if __name__ == "__main__":
    main()
