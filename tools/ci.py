#!/usr/bin/env python3
"""Runs `rt ci` at the top of the repository, so that it asks once in a walk what lies below a crate.

The kit's rt walks along each path through crates.txt, of which there are millions. It does so to begin with, and twice for each library,
whose sum it takes anew from the files of each crate on each path: about as much work as the proofs. Here a walk keeps what it has found
out, and the next begins anew. And the check of a static library leaves in out/checked what it proved, as rt has it of a program: so
tools/over_gate.py need not prove it again. All else is rt's own: what it proves, tries, builds, runs and says. An rt that is no such script
is run as it is.
"""
import copy
import functools
import importlib.machinery
import importlib.util
import os
import shutil
import subprocess
import sys
import threading

# The calls of rt's crates that call themselves for each crate below.
WALKS = ("below", "stamp")


def once_in_a_walk(ask):
    """The same call, which keeps its answers until the outermost one has ended."""
    walk = threading.local()

    @functools.wraps(ask)
    def asked(crate):
        is_outermost = not hasattr(walk, "answers")
        if is_outermost:
            walk.answers = {}
        try:
            if crate not in walk.answers:
                walk.answers[crate] = ask(crate)
            return copy.copy(walk.answers[crate])
        finally:
            if is_outermost:
                del walk.answers

    return asked


def leaves_checked(prove):
    """The same call, by which a static library's check leaves what it proved."""

    @functools.wraps(prove)
    def proved(crate, *commands):
        left = ["-o", f"{crate.folder}/out/checked"] if getattr(crate, "is_static", False) else []
        return prove(crate, *([*words, *left] if words[0] == "check" and "--test" not in words else words for words in commands))

    return proved


def is_of_the_kit(path):
    """Whether the file is the kit's rt, which runs nothing where it is only loaded."""
    with open(path, encoding="utf-8", errors="replace") as file:
        text = file.read()
    return "\nrtlib = load()\n" in text and '\nif __name__ == "__main__":\n' in text


def loaded(path):
    """The kit's rt as a module."""
    loader = importlib.machinery.SourceFileLoader("rt_of_the_kit", path)
    made = importlib.util.module_from_spec(importlib.util.spec_from_loader("rt_of_the_kit", loader))
    sys.modules["rt_of_the_kit"] = made
    loader.exec_module(made)
    return made


def main():
    os.chdir(os.path.dirname(os.path.dirname(os.path.realpath(__file__))))
    rt = os.path.realpath(shutil.which("rt") or sys.exit("ci.py: rt is missing"))
    if not is_of_the_kit(rt):
        os.execv(rt, ["rt", "ci"])
    sys.dont_write_bytecode = True
    kit = loaded(rt)
    crate = kit.rtlib.Crate
    for name in filter(lambda name: hasattr(crate, name), WALKS):
        setattr(crate, name, once_in_a_walk(getattr(crate, name)))
    # (an older prover could not take it)
    help_of_build = [getattr(kit.rtlib, "RATTLE", "true"), "build", "--help"]
    if "--crate-checked" in subprocess.run(help_of_build, capture_output=True, text=True, check=False).stdout:
        crate.prove = leaves_checked(crate.prove)
    sys.exit(kit.main(["ci"]))


if __name__ == "__main__":
    main()
