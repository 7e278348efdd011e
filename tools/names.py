#!/usr/bin/env python3
"""Looks at names and clauses: tools/names.py, at the top of the repository. Ends with 1 where something is wrong.

It reports each definition of specs/, and each public type, that has the name of another, or one that differs in case or underscores
alone and means something else; each function named by a participle alone; each clause and each ghost line over 100 columns; and each
limit that a clause or a definition writes as a number where a constant of its crate, or a public one of a crate below, has a name for it.
"""
import collections
import glob
import re
import sys

COLUMNS = 100
DEFINITION = re.compile(r"(?:pub |abbrev |record |data )*(?:abbrev|record|data|pub) (?:pub )?([^\s:({]+)")
TYPE = re.compile(r"pub (?:struct|enum|trait|type) (\w+)")
CLAUSE = re.compile(r"\s*(?:(?:requires|ensures\*?)\b|(?:pub )?ghost (?!use\b)\w+ ?[=:])")
PROMISE = re.compile(r"\s*(?:requires|ensures\*?|ghost (?:invariant|view))\b")
LIMIT = re.compile(r"(pub )?(?:pub\(crate\) )?const (MOST_\w+|PAGE_BYTES|HALF|GROUP): \w+ = (\d+);")
HANDED_ON = re.compile(r"^pub use (\w+)::(.*);", re.M)
FUNCTION = re.compile(r"\s*(?:pub(?:\(crate\))? )?(?:const )?fn (\w+)")
PARTICIPLE = re.compile(r"[a-z]+ed|begun|done|found|given|held|kept|known|left|made|seen|shown|sought|taken|told|written")
# pairs of which one is a Bool or a lemma and the other the proposition; a dead slot and a dead version are PostgreSQL's words
SAME = {"comesbefore", "hasaborted", "isaborted", "iscommitted", "isdead", "isentryin", "isfrozen"}
NUMBER = re.compile(r"(?<![\w.])(?<!\^ )(\d+)(?![\w.])")


def definitions():
    """Each definition's name, and where it is."""
    for path in sorted(glob.glob("crates/*/specs/**/*.antt", recursive=True)):
        for number, line in enumerate(open(path, encoding="utf-8"), 1):
            found = DEFINITION.match(line)
            if found and not re.match(r"pub (?:mod|use)\b", line):
                yield found.group(1), f"{path}:{number}"
    for path in sorted(glob.glob("crates/*/src/**/*.rt", recursive=True)):
        if "/test_" in path:
            continue
        for number, line in enumerate(open(path, encoding="utf-8"), 1):
            found = TYPE.match(line)
            if found:
                yield found.group(1), f"{path}:{number}"


def participles():
    """Each function whose name is a participle and nothing else, which doesn't say what it does."""
    for path in sorted(glob.glob("crates/*/src/**/*.rt", recursive=True)):
        for number, line in enumerate(open(path, encoding="utf-8"), 1):
            found = FUNCTION.match(line)
            if found and PARTICIPLE.fullmatch(found.group(1)):
                yield f"{path}:{number}: {found.group(1)} is a participle"


def long_lines():
    """Each line of a clause that is too long."""
    for path in sorted(glob.glob("crates/*/src/**/*.rt", recursive=True)):
        depth = 0
        for number, line in enumerate(open(path, encoding="utf-8"), 1):
            inside = depth > 0 or CLAUSE.match(line)
            if inside:
                depth += line.count("{") - line.count("}")
                if len(line.rstrip("\n")) > COLUMNS:
                    yield f"{path}:{number}"


def limits():
    """For each crate, the names of the limits that it may cite, by their numbers."""
    below = {}
    for line in open("crates.txt", encoding="utf-8"):
        names, _, used = line.partition(":")
        if names.strip():
            below[names.split()[0]] = set(used.split())
    own = collections.defaultdict(list)
    for path in sorted(glob.glob("crates/*/src/**/*.rt", recursive=True)):
        for public, name, number in LIMIT.findall(open(path, encoding="utf-8").read()):
            own[path.split("/")[1]].append((number, name, bool(public)))
    for crate in below:
        for path in glob.glob(f"crates/{crate}/src/lib.rt"):
            for low, names in HANDED_ON.findall(open(path, encoding="utf-8").read()):
                own[crate] += [limit for limit in own.get(low, []) if limit[2] and limit[1] in re.findall(r"\w+", names)]
    return {
        crate: {number: name for owner in used | {crate} for number, name, public in own[owner] if public or owner == crate}
        for crate, used in below.items()
    }


def promises(path):
    """The lines of a file that promise something, without comments: definitions, or clauses."""
    depth = 0
    for number, line in enumerate(open(path, encoding="utf-8"), 1):
        if path.endswith(".antt"):
            if not line.startswith("use "):
                yield number, line.partition("--")[0]
        elif depth > 0 or PROMISE.match(line):
            text = line.partition("//")[0]
            depth += text.count("{") - text.count("}")
            yield number, text


def bare_limits():
    """Each limit that is written as a number though it has a name."""
    for crate, named in limits().items():
        paths = glob.glob(f"crates/{crate}/specs/**/*.antt", recursive=True) + glob.glob(f"crates/{crate}/src/**/*.rt", recursive=True)
        # `limits` says the numbers themselves, and CallStatus.antt those of statuses
        paths = [path for path in sorted(paths) if not path.endswith("/CallStatus.antt")]
        for path in paths if not crate.startswith("test_") and crate != "limits" else []:
            for number, text in promises(path):
                for found in NUMBER.findall(text):
                    if found in named:
                        yield f"{path}:{number}: {found} is {named[found]}"


def main():
    places = collections.defaultdict(list)
    for name, place in definitions():
        places[name].append(place)
    wrong = [f"{name} has {len(at)} meanings: {', '.join(at)}" for name, at in sorted(places.items()) if len(at) > 1]
    folded = collections.defaultdict(set)
    for name in places:
        folded[re.sub("[_-]", "", name).lower()].add(name)
    wrong += [f"{' and '.join(sorted(names))} differ in case alone" for fold, names in sorted(folded.items()) if len(names) > 1 and fold not in SAME]
    wrong += list(participles())
    wrong += [f"{place}: a clause or a ghost line over {COLUMNS} columns" for place in long_lines()]
    wrong += list(bare_limits())
    print("\n".join(wrong + [f"{len(places)} names, {len(wrong)} wrong"]))
    return 1 if wrong else 0


sys.exit(main())
