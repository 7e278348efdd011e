#!/usr/bin/env python3
"""Tries many wrong edits of a crate in few checks: tools/audit.py [--jobs N] [--only WORD] [NAME ..]

Run at the top of the repository, with `rt` on the path; without names, every crate that has edits. The edits are those of
by-function/ and audit/ of crates/NAME. They are tried on copies, some sixteen in one check: a round changes each function
at most once, and judges each edit by the line that `rt check` prints for the function that it changes. An edit is refused where
that function itself is not proved. One whose function was only not reached ("it calls ..") is tried again with others of that kind, and
in the end alone, as is one that changes no single function (a definition, a constant). Prints the edits that were not refused, and
exits 1 if there are any.

"By form alone" says that a hand-written answer names a part of the old body and nothing else failed, and that no goal was found to be
false, so that the contract may not have been tried: such an edit is to be written closer to the body.
"""
import argparse
import glob
import os
import re
import shutil
import subprocess
import sys
import tempfile
import threading
import time

HEAD = re.compile(r"^(\s*)(?:pub(?:\([a-z]+\))?\s+)?(?:const\s+|unsafe\s+)*(?:extern\s+\"C\"\s+)?fn\s+(\w+)")
# an error in a proof file, with the lines that go on with it; and one that only misses a name of the old body, or follows from such
ERROR = re.compile(r"^\./proofs/(\S+)/(?:Answers|Invariants|Proof)\.antt:\d+:\d+: error: (.*(?:\n[ \t]+.*)*)", re.M)
MISSES_A_NAME = re.compile(r"has no (field )?`|can be named|is no name that rattle asks for|was not (admitted|checked)")
# a goal that is false of the new body, whatever its proof file names
IS_FALSE = re.compile(r"^note: src/.*it is not proved that.*allow values at which this goal is false", re.M)
CHECK = ("rt", "check", "--jobs", "1")
# where edits stand: those of the first are in the gate
FOLDERS = ("by-function", "audit")
# how often an edit is tried with others
MOST_TRIES = 4
# what `rt check` says of a function that was not reached, since one that it calls has no proof
NOT_REACHED = ("no proof: it calls", "no proof: the borrow checker's part in its proof is not made yet: a call of")


def text_of(path):
    with open(path, encoding="utf-8") as file:
        return file.read()


def pairs_of(edit):
    """The changes of an edit file, as (path, old text, new text)."""
    path = old = None
    pairs = []
    for line in text_of(edit).split("\n"):
        if line.startswith("file: "):
            path = line[6:].strip()
        elif line.startswith("old: "):
            old = line[5:]
        elif line.startswith("new:"):
            pairs.append((path, old, line[4:].removeprefix(" ")))
    return pairs


def edits_of(crate, *folders):
    """The files of a crate's edits, or of those that stand in these folders."""
    return sorted(file for folder in folders or FOLDERS for file in glob.glob(f"{crate}/{folder}/*.edit"))


def type_above(lines, at):
    """The name of the type (and trait) whose impl block holds line `at`, as `rt check` writes it."""
    for line in reversed(lines[:at]):
        if line.startswith("impl"):
            head = re.sub(r"^impl\s*(<.*?>)?\s*(?=[A-Z])", "", line.rstrip("{ ").strip())
            words = [re.sub(r"<.*>", "", part).strip().split("::")[-1] for part in head.split(" for ", 1)]
            return words[1] + words[0] if len(words) == 2 else words[0]
    return None


def function_at(crate, path, old, names):
    """The names, among those that `rt check` printed, of the function whose text holds `old`."""
    if not path.startswith("src/"):
        return set()
    text = text_of(f"{crate}/{path}")
    place = text.find(old)
    if place < 0:
        return set()
    lines, at = text.split("\n"), text.count("\n", 0, place)
    module = path[4:-3].replace("/", "::")
    module = "" if module in ("lib", "main") else module + "::"
    for n in range(at, -1, -1):
        head = HEAD.match(lines[n])
        if not head:
            continue
        if any(line.startswith(head[1] + "}") and not line.startswith(head[1] + "} else") for line in lines[n + 1 : at]):
            return set()
        owner = type_above(lines, n) if head[1] else None
        if owner:
            return {name for name in names if name.endswith(f"::{owner}::{head[2]}")}
        return {name for name in names if name == f"{os.path.basename(crate)}::{module}{head[2]}"}
    return set()


def reached_in(crate):
    """The names of the crate's functions, each with those that it may call, read off the texts: one of another type may count too."""
    calls = {}
    for path in glob.glob(f"{crate}/src/**/*.rt", recursive=True):
        within = None
        for line in text_of(path).split("\n"):
            head = HEAD.match(line)
            within = calls.setdefault(head[2], set()) if head else within
            if within is not None and not head:
                within |= set(re.findall(r"\b(\w+)\(", line))
    reached = {name: found & set(calls) for name, found in calls.items()}
    while True:
        more = {name: found.union(*(reached[it] for it in found)) for name, found in reached.items()}
        if more == reached:
            return reached
        reached = more


def in_each_others_way(these, those, reached):
    """Whether functions of the one set may call functions of the other, or are the same."""
    ones, others = [{it.rpartition("::")[2] for it in them} for them in (these, those)]
    meets = lambda some, more: any(more & ({it} | reached.get(it, set())) for it in some)
    return meets(ones, others) or meets(others, ones)


class Said:
    """What a check in a folder said: of each function, the errors of reading, and which functions fail by form alone."""

    def __init__(self, words, folder, name):
        before = time.time()
        with tempfile.TemporaryFile("w+", encoding="utf-8", errors="replace") as out:
            started = subprocess.Popen(words, cwd=folder, stdin=subprocess.DEVNULL, stdout=out, stderr=subprocess.STDOUT)
            _, status, used = os.wait4(started.pid, 0)
            out.seek(0)
            said = out.read()
        self.status, self.spent, self.clock = status, used.ru_utime + used.ru_stime, time.time() - before
        self.functions = {m[1]: m[2] for m in re.finditer(r"^(?:fn|impl) (\S+): (.*)$", said, re.M)}
        self.unread = re.findall(r"^.*error\[.*$", said, re.M)[:3]
        wrong = {}
        for path, error in ERROR.findall(said):
            wrong.setdefault(f"{name}::" + path.replace("/", "::"), []).append(error)
        # (what is said of a function stands before the line with its verdict)
        of = {m[2]: m[1] for m in re.finditer(r"((?:^(?!fn ).*\n)*)^fn (\S+): not proved", said, re.M)}
        self.by_form = {
            f for f, errors in wrong.items() if f in of and all(map(MISSES_A_NAME.search, errors)) and not IS_FALSE.search(of[f])
        }


def changed(crate, edits):
    """The files' texts after the edits that can be made together, and those edits."""
    texts, made = {}, []
    for edit in edits:
        here = dict(texts)
        for path, old, new in edit["pairs"]:
            text = here[path] if path in here else text_of(f"{crate}/{path}")
            if text.count(old) != 1:
                break
            here[path] = text.replace(old, new)
        else:
            texts = here
            made.append(edit)
    return texts, made


def next_round(todo, reached):
    """The edits that are tried together next: none changes a function that another may call, or each is alone."""
    this, used, tries = [], set(), min(edit["tries"] for edit in todo)
    for edit in todo:
        if edit["tries"] > tries:
            continue
        alone = edit["of"] is None
        if not this or (not alone and this[0]["of"] is not None and not in_each_others_way(edit["of"], used, reached)):
            this.append(edit)
            used |= edit["of"] or set()
            if alone:
                break
    return this


def verdict_of(edit, made, said, names):
    """Whether an edit of a round was refused, or None where the round doesn't tell."""
    lost = {f for f in names if not said.functions.get(f, "absent").startswith("proved")}
    own = {f for f in lost if not said.functions.get(f, "absent").startswith(NOT_REACHED)}
    if said.unread:
        return f"BAD: {said.unread[0].strip()}" if len(made) == 1 else None
    if edit["of"] is None:
        return "refused" if said.status else "NOT REFUSED"
    if edit["of"] & own:
        return "refused by form alone" if not (edit["of"] & own) - said.by_form else "refused"
    if edit["of"] & lost:
        return "refused" if len(made) == 1 else None
    return "NOT REFUSED"


def try_round(crate, name, texts, words=CHECK):
    """What a check in the crate's folder says with these texts in place of its own."""
    was = {path: text_of(f"{crate}/{path}") for path in texts}
    for path, text in texts.items():
        with open(f"{crate}/{path}", "w", encoding="utf-8") as file:
            file.write(text)
    said = Said(words, crate, name)
    for path, text in was.items():
        with open(f"{crate}/{path}", "w", encoding="utf-8") as file:
            file.write(text)
    return said


def audit(top, name, only, known, note):
    """The edits of a crate that were not refused, and a line on all of them. What is found of each is noted at once, and what
    is known from earlier is not tried again."""
    crate = f"{top}/crates/{name}"
    files = edits_of(crate)
    files = [file for file in files if not only or only in os.path.basename(file)]
    if not files:
        return [], None
    plain = Said(CHECK, crate, name)
    if plain.status:
        return [f"{name} is not proved as it is"], None
    names, reached, checks, spent, clock = plain.functions, reached_in(crate), 0, 0.0, 0.0
    edits = []
    for file in files:
        pairs = pairs_of(file)
        found = [function_at(crate, path, old, names) for path, old, _ in pairs]
        of = set.union(*found) if found and all(found) else None
        edits.append({"name": os.path.basename(file)[:-5], "pairs": pairs, "of": of, "tries": 0})
    todo, verdicts = [edit for edit in edits if f"{name}/{edit['name']}" not in known], {}
    while todo:
        this = next_round(todo, reached)
        texts, made = changed(crate, this)
        if not made:
            verdicts[this[0]["name"]] = "BAD: a text is not there once"
            note(f"{name}/{this[0]['name']}: {verdicts[this[0]['name']]}")
            todo = [edit for edit in todo if edit is not this[0]]
            continue
        said = try_round(crate, name, texts)
        spent, clock, checks = spent + said.spent, clock + said.clock, checks + 1
        for edit in made:
            verdict = verdict_of(edit, made, said, names)
            if verdict:
                verdicts[edit["name"]] = verdict
                note(f"{name}/{edit['name']}: {verdict}")
        left = [edit for edit in todo if edit["name"] not in verdicts]
        # What a round gave no verdict on is tried again once all else was tried as often, without the edits that were in its way.
        for edit in made:
            edit["tries"] += 1
            if edit["tries"] > MOST_TRIES or said.unread:
                edit["of"] = None
        todo = left
    bad = [f"{name}/{edit}: {verdict}" for edit, verdict in sorted(verdicts.items()) if not verdict.startswith("refused")]
    forms = sorted(edit for edit, verdict in verdicts.items() if verdict == "refused by form alone")
    line = f"| `{name}` | {len(verdicts)} | {len(verdicts) - len(bad)} | {checks} | {spent:.0f} |"
    return bad, line + (f" by form alone: {', '.join(forms)}" if forms else "")


def left_out(folder, names):
    """What a copy does without: of what runs made, it keeps the proved libraries and what checks kept."""
    return [name for name in names if name == ".git" or os.path.basename(folder) == "out" and name not in ("rlib", "incremental")]


def work(room, number, names, lock, only, bad, known, note):
    """Audits crates in a copy of the repository of its own, until none is left."""
    top = f"{room}/{number}"
    shutil.copytree(".", top, symlinks=True, ignore=left_out)
    while True:
        with lock:
            if not names:
                return
            name = names.pop(0)
        missed, line = audit(top, name, only, known, note)
        with lock:
            bad += missed
            if line:
                print(line, flush=True)


def main():
    parser = argparse.ArgumentParser(description=__doc__, formatter_class=argparse.RawDescriptionHelpFormatter)
    parser.add_argument("--jobs", type=int, default=1, help="how many crates are tried side by side")
    parser.add_argument("--only", help="try the edits whose names have this in them")
    parser.add_argument("--notes", help="a file to which each edit's verdict is added as it comes; what it has is not tried again")
    parser.add_argument("names", nargs="*", help="crates; all that have edits, if none is named")
    words = parser.parse_args()
    names = words.names or [line.split(":")[0].split()[0] for line in text_of("crates.txt").split("\n") if ":" in line]
    began, bad, lock = time.time(), [], threading.Lock()

    known = set()
    if words.notes and os.path.exists(words.notes):
        known = {line.split(": ")[0] for line in text_of(words.notes).split("\n") if ": refused" in line}

    def note(line):
        if words.notes:
            with open(words.notes, "a", encoding="utf-8") as file:
                file.write(line + "\n")

    print("| crate | edits | refused | checks | processor seconds |\n|---|---:|---:|---:|---:|", flush=True)
    with tempfile.TemporaryDirectory(prefix="audit-") as room:
        threads = [threading.Thread(target=work, args=(room, n, names, lock, words.only, bad, known, note)) for n in range(words.jobs)]
        for thread in threads:
            thread.start()
        for thread in threads:
            thread.join()
    print("\n".join(sorted(bad)) or f"each edit was refused; {time.time() - began:.0f} s")
    sys.exit(1 if bad else 0)


if __name__ == "__main__":
    main()
