#!/usr/bin/env python3
"""Counts the lines of definitions that contracts reach: tools/definitions.py [CRATE ..], or [CRATE.MODULE.NAME ..]

Run at the top of the repository. It begins with the definitions that the clauses of the crates' public functions name, exports to C among
them (session_core and session_steps if nothing is named), or with the definitions that are named. It goes on with those that these name,
and prints for each crate how many lines they have, without comments, blank lines and imports, and the files that hold them. docs/trust.md
has the sums. Types and constants of the code are not counted.
"""
import os
import re
import sys

START = re.compile(r"^(?:abbrev |unfoldable )?pub (?:record |data |abbrev )?([^\s:(){}]+)")
WORD = re.compile(r"[^\s(){}\[\],;]+")
# The crates whose contracts a caller reads.
PUBLIC = ["session_core", "session_steps"]


def modules():
    """Each module of definitions: its imports (name here: (module, name there), alias: module) and its definitions (name: lines)."""
    found = {}
    for crate in sorted(os.listdir("crates")):
        for at, _, files in os.walk(f"crates/{crate}/specs"):
            for file in files:
                if file.endswith(".antt") and file != "Lib.antt":
                    found[f"{crate}.{file[:-5]}"] = read(f"{at}/{file}")
    return found


def imports_of(line):
    """What a use line brings in."""
    m = re.match(r"(?:ghost |pub )*use Rattle\.(\w+)\.specs\.(\w+)(?:\.\{(.*)\})?(?: as (\w+))?;?$", line.strip())
    if not m:
        return {}, {}
    module = f"{m[1]}.{m[2]}"
    if m[3] is None:
        return {}, {m[4] or m[2]: module}
    names = [part.strip().split(" as ") for part in m[3].split(",")]
    return {part[-1].strip(): (module, part[0].strip()) for part in names}, {}


def read(path):
    names, aliases, definitions, current = {}, {}, {}, None
    with open(path, encoding="utf-8") as file:
        for line in file:
            line = line.rstrip("\n")
            if re.match(r"(pub )?use ", line):
                more, other = imports_of(line)
                names.update(more)
                aliases.update(other)
            elif line.strip() and not line.lstrip().startswith("--"):
                start = START.match(line)
                if start and not line.startswith(" "):
                    current = start[1]
                if current:
                    definitions.setdefault(current, []).append(line)
    return {"names": names, "aliases": aliases, "definitions": definitions}


def constructors(module):
    """The constructors of the module's data types, with the type that has them."""
    found = {}
    for name, lines in module["definitions"].items():
        if " data " in lines[0]:
            found.update({m[1]: name for m in (re.match(r"\s+([a-z]\w*) :", line) for line in lines[1:]) if m})
    return found


def resolve(known, module, name):
    """Where a name that is used in a module is defined, if in a module of definitions."""
    here = known.get(module)
    if here is None:
        return None
    if name in here["definitions"]:
        return module, name
    if name in here["names"]:
        return resolve(known, *here["names"][name]) or None
    if name in constructors(here):
        return module, constructors(here)[name]
    alias, _, rest = name.partition(".")
    if rest and alias in here["aliases"]:
        return resolve(known, here["aliases"][alias], rest)
    return None


def roots(known, crate):
    """What the clauses of the crate's public functions name."""
    for at, _, files in os.walk(f"crates/{crate}/src"):
        for file in sorted(files):
            names, clauses, public, signature = {}, [], False, False
            with open(f"{at}/{file}", encoding="utf-8") as it:
                for line in it:
                    more, _ = imports_of(line)
                    names.update(more)
                    if re.match(r"\s*(pub )?(const |extern \"C\" )?fn ", line) or re.match(r"\s*pub\(crate\) fn ", line):
                        public = bool(re.match(r"\s*pub (const |extern \"C\" )?fn ", line))
                    if public and re.match(r"\s*(requires|ensures)\b", line):
                        signature = True
                    if re.match(r"\s*\{\s*$|\{\}\s*$", line):
                        signature = False
                    if signature:
                        clauses += WORD.findall(line)
            for word in clauses:
                if word in names:
                    yield resolve(known, *names[word])


def counted(known, words):
    """For each crate, in the order of crates.txt, how many lines of definitions are reached from what is named, and their modules."""
    named = [tuple(word.rsplit(".", 1)) for word in words if "." in word]
    todo, reached = named or [it for word in words for it in roots(known, word) if it], set()
    while todo:
        module, name = todo.pop()
        if (module, name) in reached:
            continue
        reached.add((module, name))
        for line in known[module]["definitions"][name]:
            for word in WORD.findall(line):
                there = resolve(known, module, word.strip("¬"))
                if there and there not in reached:
                    todo.append(there)
    with open("crates.txt", encoding="utf-8") as file:
        order = [line.split(":")[0].split()[0] for line in file if ":" in line]
    for crate in order:
        mine = [(m.split(".")[1], len(known[m]["definitions"][n])) for m, n in reached if m.split(".")[0] == crate]
        if mine:
            yield crate, sum(lines for _, lines in mine), sorted({module for module, _ in mine})


def table(known, words):
    """The rows of the table that is printed: a row more for each ten modules of a crate."""
    rows = list(counted(known, words))
    for crate, lines, modules in rows:
        begin = f"| `{crate}` | {lines} |"
        for at in range(0, len(modules), 10):
            yield f"{begin} {', '.join(f'`{module}`' for module in modules[at:at + 10])} |"
            begin = "| | |"
    yield f"| all | {sum(lines for _, lines, _ in rows):,} | |"


def main():
    print("| crate | lines | in |\n|---|---:|---|")
    print("\n".join(table(modules(), sys.argv[1:] or PUBLIC)))


if __name__ == "__main__":
    main()
