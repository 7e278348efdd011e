"""Has each wrong edit read as code, and proves none: `tools/edits.py --compile [NAME ..]`

An edit tells something of a contract only where its new text is code: a name that is no longer imported would have it refused by anything.
Each edit of by-function/, must-fail/ and audit/ is made on a copy of the sources, which goes through parsing, names, types and the borrow
checker. Many are made at once: edits of several functions, in all crates, are in each other's way nowhere, since a function is read by
itself. Above all of them stands a crate with a loan that is refused, so that the compiler stops where it would begin to prove. An edit
that an error may be due to is read again with no other.

An edit of specs/ is read by the logic, in a check of a function that proves nothing and imports those files. That needs the libraries below
as `rt ci` or a check has left them: where they are not made, such edits are counted, and not read. Exits 1 where an edit is no code, or a
text that it replaces is not there once.
"""
import os
import queue
import re
import shutil
import subprocess
import tempfile
from concurrent.futures import ThreadPoolExecutor
from typing import Dict, FrozenSet, Iterable, List, NamedTuple, Optional, Tuple

import audit
from over_gate import KIT, PROVER, ROOT, below, is_made, used, words_for

FOLDERS = ("by-function", "must-fail", "audit")
# a crate of this name stands above all that is read, and has this function, which the borrow checker refuses
TOP = "all_edits"
REFUSED = """fn changed_while_lent(number: u32) -> u32 {
    let mut held = number;
    let lent = &held;
    held = 2;
    *lent
}
"""
# a module with this function has the logic read the files that it imports
READS = """ghost use Rattle.std.specs.Prelude.{{IsTrue}};
{imports}

pub fn reads_specs() -> bool
    ensures {{ IsTrue result }}
{{
    true
}}
"""
ERROR = re.compile(r"^(\S+?):(\d+):\d+: error(?:\[[\w-]+\])?: (.*)$", re.M)
FOLLOWS = re.compile(r"which was rejected, was not checked")
DEFINITION = re.compile(r"^(?:\w+ )*pub (?:\w+ )*?([^\s:(){}]+)(?= [:({])")
# a function or a definition of a file, by its number in that file
Place = Tuple[str, str, int]


class Edit(NamedTuple):
    """An edit: what it changes, and the functions or definitions whose bodies hold all of that, if such do."""

    name: str
    crate: str
    pairs: List[Tuple[str, str, str]]
    places: FrozenSet[Place]

    def is_of_specs(self) -> bool:
        return any(path.startswith("specs/") for path, _, _ in self.pairs)


def heads_of(path: str, lines: List[str]) -> List[int]:
    """The lines at which a file's functions begin, or its definitions."""
    head = DEFINITION if path.endswith(".antt") else audit.HEAD
    return [number for number, line in enumerate(lines) if head.match(line)]


def body_of(path: str, lines: List[str], head: int) -> range:
    """The lines of what begins at this one: of a function those within its braces, of a definition all up to an empty one."""
    if path.endswith(".antt"):
        ends = (number for number in range(head, len(lines)) if not lines[number])
        return range(head, next(ends, len(lines)))
    indent = audit.HEAD.match(lines[head])[1]
    opens = re.compile(r"^\s*\{$|^(?!\s+(?:requires|ensures|ghost|decreases)\b).*\{$")
    first = next((number for number in range(head, len(lines)) if opens.match(lines[number])), len(lines))
    return range(first, next((number for number in range(first, len(lines)) if lines[number] == f"{indent}}}"), first))


def place_at(crate: str, path: str, text: str, line: int) -> Optional[Place]:
    """The function or definition whose body has this line, if one has it."""
    lines = text.split("\n")
    found = [number for number in heads_of(path, lines) if number <= line]
    return (crate, path, len(found)) if found and line in body_of(path, lines, found[-1]) else None


def places_of(crate: str, pairs: List[Tuple[str, str, str]]) -> FrozenSet[Place]:
    """The functions or definitions that an edit changes: none where it changes anything else too."""
    places = set()
    for path, old, _ in pairs:
        text = audit.text_of(f"{ROOT}/crates/{crate}/{path}")
        places.add(place_at(crate, path, text, text.count("\n", 0, text.find(old))))
    return frozenset() if None in places else frozenset(places)


def edits_of(crates: Iterable[str]) -> List[Edit]:
    """The edits of these crates."""
    found = []
    for crate in crates:
        for file in audit.edits_of(f"{ROOT}/crates/{crate}", *FOLDERS):
            pairs, folder = audit.pairs_of(file), os.path.basename(os.path.dirname(file))
            name = f"{crate}/{folder}/{os.path.basename(file).removesuffix('.edit')}"
            found.append(Edit(name, crate, pairs, places_of(crate, pairs)))
    return found


def root_of(crate: str) -> str:
    return next(it for it in ("src/lib.rt", "src/main.rt") if os.path.exists(f"{ROOT}/crates/{crate}/{it}"))


def rounds_of(edits: List[Edit]) -> List[List[Edit]]:
    """Edits that may be read together: no two of one function, one that changes anything else alone, and no program with another."""
    rounds: List[List[Edit]] = []
    alone = [edit for edit in edits if not edit.places or root_of(edit.crate) == "src/main.rt"]
    for edit in (edit for edit in edits if edit not in alone):
        fits = (this for this in rounds if all(not edit.places & other.places for other in this))
        this = next(fits, None)
        if this is None:
            this = []
            rounds.append(this)
        this.append(edit)
    return [*rounds, *([edit] for edit in alone)]


class Copy:
    """A copy of what crates are read from."""

    def __init__(self, folder: str, uses: Dict[str, List[str]]) -> None:
        self.folder, self.uses = folder, uses
        for crate in uses:
            for part in filter(lambda part: os.path.isdir(f"{ROOT}/crates/{crate}/{part}"), ("src", "specs")):
                shutil.copytree(f"{ROOT}/crates/{crate}/{part}", f"{folder}/{crate}/{part}")
        os.makedirs(f"{folder}/{TOP}/src")
        self.write({f"{TOP}/src/lib.rt": REFUSED})

    def write(self, texts: Dict[str, str]) -> None:
        for path, text in texts.items():
            with open(f"{self.folder}/{path}", "w", encoding="utf-8") as file:
                file.write(text)

    def said(self, texts: Dict[str, str], words: List[str], at: str) -> List[Tuple[str, int, str]]:
        """The errors of a command there with these texts in place of the copy's own: path, line and words."""
        was = {path: audit.text_of(f"{self.folder}/{path}") for path in texts}
        self.write(texts)
        ran = subprocess.run(words, cwd=f"{self.folder}/{at}", capture_output=True, text=True, errors="replace", check=False)
        self.write(was)
        said = ran.stdout + ran.stderr
        path = lambda it: os.path.relpath(os.path.join(self.folder, at, it), self.folder)
        errors = [(path(m[1]), int(m[2]) - 1, m[3]) for m in ERROR.finditer(said) if not FOLLOWS.search(m[3])]
        if not errors and ran.returncode not in (0, 1):
            raise RuntimeError(f"the compiler did not read: {said[-500:]}")
        return errors

    def errors_in_code(self, texts: Dict[str, str], crates: Iterable[str]) -> List[Tuple[str, int, str]]:
        """What the compiler says of these crates before it would prove."""
        needed = list(dict.fromkeys(it for crate in crates for it in [*below(crate, self.uses), crate]))
        kit = dict.fromkeys(["std", "core", *(it for crate in needed for it in self.uses[crate] if it not in self.uses)])
        program = next((crate for crate in needed if root_of(crate) == "src/main.rt"), None)
        words = [PROVER, "check", "--crate-name", program or TOP, root_of(program) if program else "src/lib.rt"]
        words += [word for name in kit for word in ("--extern", f"{name}={KIT}/rlibs/{name}.rlib")]
        for crate in filter(lambda crate: crate != program, needed):
            names = ",".join(dict.fromkeys(["core", "std", *self.uses[crate]]))
            words += ["--lib", f"{crate}:{names}={self.folder}/{crate}/{root_of(crate)}"]
        words += ["-L", f"dependency={KIT}/rlibs", "--antt-project", f"{KIT}/rattle/logic/antt-project.json", "--only", ""]
        top = f"{program}/{root_of(program)}" if program else f"{TOP}/src/lib.rt"
        if program:
            texts = {**texts, top: texts.get(top, audit.text_of(f"{self.folder}/{top}")) + REFUSED}
        errors = self.said(texts, words, program or TOP)
        # (a stop before the borrow checker is due to an error of its own)
        if not errors:
            raise RuntimeError("the compiler did not come to the loan that it has to refuse")
        return [error for error in errors if not (error[0] == top and "`held`" in error[2])]

    def errors_in_specs(self, texts: Dict[str, str], crate: str) -> List[Tuple[str, int, str]]:
        """What the logic says of the files of specs/ that these texts stand for."""
        imports = []
        for path in texts:
            if path.startswith(f"{crate}/specs/"):
                name = next(m[1] for m in map(DEFINITION.match, texts[path].split("\n")) if m)
                imports.append(f"ghost use Rattle.{crate}.specs.{os.path.basename(path)[:-5]}.{{{name}}};")
        root = f"{crate}/{root_of(crate)}"
        text = texts.get(root, audit.text_of(f"{self.folder}/{root}"))
        self.write({f"{crate}/src/reads_specs.rt": READS.format(imports="\n".join(imports))})
        # (a module may stand before any item)
        texts = {**texts, root: re.sub(r"^(?=(?:pub )?(?:mod|use|ghost use) )", "mod reads_specs;\n", text, count=1, flags=re.M)}
        words = [PROVER, "check", *words_for(crate, self.uses), "--only", "reads_specs::reads_specs"]
        errors = self.said(texts, words, crate)
        os.remove(f"{self.folder}/{crate}/src/reads_specs.rt")
        return errors


class Reader:
    """Reads edits over copies, and keeps of each that is no code why."""

    def __init__(self, room: str, uses: Dict[str, List[str]], lanes: int) -> None:
        self.uses, self.faults = uses, {}
        self.copies: "queue.Queue[Copy]" = queue.Queue()
        for number in range(lanes):
            self.copies.put(Copy(f"{room}/{number}", uses))

    def errors(self, edits: List[Edit]) -> Tuple[Dict[str, str], List[Tuple[str, int, str]]]:
        """The texts with these edits, and what is said of them."""
        copy = self.copies.get()
        try:
            texts: Dict[str, str] = {}
            for edit in edits:
                for path, old, new in edit.pairs:
                    path = f"{edit.crate}/{path}"
                    text = texts.get(path) or audit.text_of(f"{copy.folder}/{path}")
                    texts[path] = text.replace(old, new)
            if edits[0].is_of_specs():
                return texts, copy.errors_in_specs(texts, edits[0].crate)
            return texts, copy.errors_in_code(texts, dict.fromkeys(edit.crate for edit in edits))
        finally:
            self.copies.put(copy)

    def read(self, edits: List[Edit]) -> None:
        """Reads edits together, and each that an error may be due to by itself."""
        while edits:
            texts, errors = self.errors(edits)
            if not errors:
                return
            if len(edits) == 1:
                self.faults[edits[0].name] = errors[0][2]
                return
            files, places = {path for path, _, _ in errors}, set()
            for path, line, _ in errors:
                crate, _, file = path.partition("/")
                places.add(place_at(crate, file, texts[path], line) if path in texts else None)
            suspects = [edit for edit in edits if edit.places & places]
            # (an error at the end of a file, say, is due to any edit of that file)
            suspects = suspects or [edit for edit in edits if any(f"{edit.crate}/{path}" in files for path, _, _ in edit.pairs)] or edits
            for edit in suspects:
                self.read([edit])
            edits = [edit for edit in edits if edit not in suspects]


def not_once(edit: Edit) -> Optional[str]:
    """A text that an edit replaces and that is not there once, if there is one."""
    _, made = audit.changed(f"{ROOT}/crates/{edit.crate}", [{"pairs": edit.pairs}])
    return None if made else "a text is not there once"


def read_all(names: List[str]) -> int:
    """Reads the edits of these crates, or of all, says which are no code, and gives how many there are of those."""
    uses = used()
    edits = edits_of(names or uses)
    faults = {edit.name: fault for edit in edits for fault in [not_once(edit)] if fault}
    edits = [edit for edit in edits if edit.name not in faults]
    is_ready = lambda edit: all(map(is_made, below(edit.crate, uses)))
    unread = [edit for edit in edits if edit.is_of_specs() and not is_ready(edit)]
    rounds = rounds_of([edit for edit in edits if not edit.is_of_specs()])
    for crate in dict.fromkeys(edit.crate for edit in edits if edit.is_of_specs() and edit not in unread):
        rounds += rounds_of([edit for edit in edits if edit.crate == crate and edit.is_of_specs()])
    lanes = len(os.sched_getaffinity(0))
    with tempfile.TemporaryDirectory(prefix="read-edits-") as room, ThreadPoolExecutor(lanes) as pool:
        reader = Reader(room, uses, lanes)
        list(pool.map(reader.read, rounds))
        faults.update(reader.faults)
    print("\n".join(f"{name}: it is no code: {fault}" for name, fault in sorted(faults.items())) or "edits.py: each edit is code", end="")
    print(f"; {len(edits) - len(unread)} were read, in {len(rounds)} rounds" if not faults else "")
    if unread:
        crates = " ".join(dict.fromkeys(edit.crate for edit in unread))
        print(f"edits.py: {len(unread)} edits of definitions were not read, since libraries below these crates are not made: {crates}")
    return len(faults)
