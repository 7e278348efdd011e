#!/usr/bin/env python3
"""Lists lemmas that could go: tools/lemmas.py [NAME ..]

Run at the top of the repository; without names, of every crate. It reads the lemma files of crates/NAME/proofs, and says of each lemma

- whether nothing names it but itself: no other lemma, no answer and no code of any crate;
- whether another has the same statement, however its variables are named, and which.

A list is no verdict. A tactic finds some lemmas by itself, where a file imports all of a module or a set of rules has them: what is taken
out is tried by `rt check` of the crate and of those above that read it. Nor does the list see a lemma that only another of the list names.
"""
import glob
import os
import re
import sys
from typing import Dict, Iterator, List, NamedTuple, Set

# files of answers, which rt asks for by their name
ANSWERS = ("Answers.antt", "Invariants.antt", "Proof.antt", "Lib.antt")
HEAD = re.compile(r"^(?!use |mod |--|data |record )((?:\w+ )*?)([^\s:(){}]+) :(?= |$)")
WORD = re.compile(r"[^\s(){}.,;:`]+")
BINDER = re.compile(r"[({]([^(){}:]+) :(?= )")


class Lemma(NamedTuple):
    """A lemma: where it begins, its name, its statement, and all lines that are its own."""

    path: str
    line: int
    name: str
    statement: str
    lines: range


def text_of(path: str) -> str:
    with open(path, encoding="utf-8") as file:
        return file.read()


def is_of(name: str, line: str) -> bool:
    """Whether a line goes on with the lemma of this name: one of its equations, or a bracket that closes what it began."""
    return line.startswith(("}", "]", ")")) or line.split()[0] == name


def lemmas_in(path: str) -> Iterator[Lemma]:
    """The lemmas of a file. A definition has no line of its own that goes on with `=`, or ends in a type of types."""
    lines = text_of(path).split("\n")
    heads = [(at, HEAD.match(line)) for at, line in enumerate(lines) if HEAD.match(line)]
    for (at, head), (after, _) in zip(heads, [*heads[1:], (len(lines), None)]):
        first = next((n for n in range(at + 1, after) if lines[n][:1].strip()), after)
        # (what a `module` behind it holds is not its own)
        after = next((n for n in range(first, after) if lines[n][:1].strip() and not is_of(head[2], lines[n])), after)
        statement = " ".join(" ".join([lines[at][head.end() :], *lines[at + 1 : first]]).split())
        if "abbrev" not in head[1] and "unfoldable" not in head[1] and not statement.endswith("Type 0"):
            yield Lemma(path, at + 1, head[2], statement, range(at, after))


def is_named(lemma: Lemma, places: Dict[str, Set[str]], within: Dict[str, Dict[str, List[int]]]) -> bool:
    """Whether another text has the lemma's name: another file, or lines of its own file that are not the lemma's."""
    files = places.get(lemma.name, set())
    return bool(files - {lemma.path}) or any(at not in lemma.lines for at in within[lemma.path].get(lemma.name, []))


def shape_of(statement: str) -> str:
    """A statement with its variables by number, so that two of one meaning are alike whatever they call them."""
    numbers: Dict[str, str] = {}
    for group in BINDER.finditer(statement):
        for name in group[1].split():
            numbers.setdefault(name, f"_{len(numbers)}")
    return WORD.sub(lambda word: numbers.get(word[0], word[0]), statement)


def main() -> None:
    files = [path for ending in ("antt", "rt") for path in sorted(glob.glob(f"crates/*/**/*.{ending}", recursive=True))]
    files = [path for path in files if path.split("/")[2] in ("src", "specs", "proofs")]
    places: Dict[str, Set[str]] = {}
    within: Dict[str, Dict[str, List[int]]] = {}
    for path in files:
        here = within.setdefault(path, {})
        for at, line in enumerate(text_of(path).split("\n")):
            for word in WORD.findall(line.partition("-- ")[0]):
                here.setdefault(word, []).append(at)
                places.setdefault(word, set()).add(path)
    is_lemmas = lambda path: path.split("/")[2] == "proofs" and path.endswith(".antt") and os.path.basename(path) not in ANSWERS
    found = [lemma for path in filter(is_lemmas, files) for lemma in lemmas_in(path)]
    alike: Dict[str, List[Lemma]] = {}
    for lemma in found:
        alike.setdefault(shape_of(lemma.statement), []).append(lemma)
    asked = sys.argv[1:]
    unnamed = [lemma for lemma in found if not is_named(lemma, places, within)]
    wanted = lambda lemma: not asked or lemma.path.split("/")[1] in asked
    for lemma in filter(wanted, unnamed):
        print(f"{lemma.path}:{lemma.line}: nothing names {lemma.name}")
    twice = [these for these in alike.values() if len(these) > 1 and any(map(wanted, these))]
    for first, *others in twice:
        print(f"{first.path}:{first.line}: {first.name} is " + ", ".join(f"{it.name} ({it.path}:{it.line})" for it in others))
    print(f"{len(found)} lemmas: nothing names {len(unnamed)}, and {len(twice)} statements are proved twice or more")


if __name__ == "__main__":
    main()
