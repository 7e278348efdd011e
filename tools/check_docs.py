#!/usr/bin/env python3
"""Checks the documents against the repository: tools/check_docs.py [HEAPSH]

Reads README.md, CONTRIBUTING.md and the pages of docs/, bench/, examples/, tools/, tests/ and crates/, and says where

- a link leads to no file of the repository, or to no heading of one;
- a name in backticks or in a block of code is none of the repository's: no file, crate, module, definition, type, function, field,
  clause, edit or word of a script. A name with a module before it (`Agrees.Follows`, `Page::add`) has to be of that module or type;
- a block of code behind a comment `<!-- from examples/NAME -->` is no part of that example's page, line by line and answer by answer;
- a row of a table in docs/guarantees.md has a promise of more than 25 words, or a definition or an edit of a crate that neither its
  heading nor the lines below that name;
- a line has 140 columns or more, or a sentence more than 30 words, in a page or in a comment of code (tools/docs/sentences.py);
- a function is not in the file to which a link leads, a line of a difference not in its file, a drawing not as the example that it is
  drawn from, or a cost in README.md not on the page of its measurement (tools/docs/places.py);
- a figure is not what the repository has: lines of definitions, layers, sizes, edits, calls (tools/docs/figures.py);
- a refusal or a status has another number, name or meaning somewhere than in the table of docs/rules.md (tools/docs/refusals.py);
- a fault has other words than in tests/fault_words.md or docs/script.md, or the program another exit status
  (tools/docs/fault_words.py);
- a text that an edit replaces is not in its file once (tools/audit.py says where edits stand).

With a path to the program, it also compares its answers with those on the examples' pages, as examples/check.py does.
Run it at the top of the repository. It prints what is wrong, one place a line, and ends with status 1 where anything is.
"""
import glob
import os
import re
import subprocess
import sys

import audit
from docs import fault_words, figures, places, refusals, sentences

WIDTH = 140
PROMISE = 25
# The page whose table has the notation of contracts.
NOTATION = "docs/reading.md"

# Words that are none of ours: of Rust, of the kit and its libraries, of the shell.
OTHERS = """
AllocError Brand Err Global None Ok Option Result SmallVec Some String Vec IfSome ensures requires unwrap
arrayvec byteorder itoa lru rayon smallvec thiserror mremap sqlite3 pip PKG_CONFIG_PATH linux_x86_64
std mem bool size_t uint64_t UINT64_MAX malloc realloc rattle_alloc rattle_realloc rattle_dealloc
Duration from_millis try_for_each unwrap_or_default static_cast
""".split()
# A word in capitals is to be replaced by another, as in `rt ci NAME`, or is of SQL.
PLACEHOLDER = r"[A-Z][A-Z0-9]*"

IDENTIFIER = r"[A-Za-z_][A-Za-z0-9_]*"
ENDINGS = ("rt", "antt", "py", "md", "sh", "script", "edit", "txt", "rs", "page", "cpp", "toml")


def tracked():
    """The files of the repository, those that are not committed yet included; where git can't tell, all but what is built."""
    try:
        said = subprocess.run(["git", "ls-files", "-co", "--exclude-standard"], capture_output=True, text=True, check=True)
        paths = said.stdout.split("\n")
    except (OSError, subprocess.CalledProcessError):
        paths = []
        for folder, folders, names in os.walk("."):
            folders[:] = [name for name in folders if name not in (".git", "out", "__pycache__")]
            paths += [os.path.relpath(os.path.join(folder, name)) for name in names]
    return [path for path in paths if path and os.path.exists(path)]


def text_of(path):
    with open(path, encoding="utf-8") as file:
        return file.read()


class Names:
    """What the repository names: every name, and the names of each module, type and crate."""

    def __init__(self, files):
        self.paths = set(files) | {"/".join(path.split("/")[:n]) for path in files for n in range(1, path.count("/") + 1)}
        self.all, self.of, self.declared, self.file = set(OTHERS), {}, {}, None
        for path in files:
            parts = path.split("/")
            self.all |= {re.sub(r"\.\w+$", "", part) for part in parts}
            self.file = path
            if parts[0] == "crates" and len(parts) > 2:
                if path.endswith(".antt"):
                    self.read_logic(path, parts[1])
                elif path.endswith(".rt"):
                    self.read_code(path, parts[1])
            elif path.endswith(".py"):
                self.all |= set(re.findall(rf"\b(?:def|class) ({IDENTIFIER})", text_of(path)))
            elif path.endswith(".md"):
                # the files that a page has its reader make, and the programs that come of them
                made = re.findall(r"^In `((\w+)\.\w+)`:$", text_of(path), re.M)
                self.paths |= {name for file, program in made for name in (file, f"./{program}")}
            elif path.endswith((".h", ".c")):
                self.all |= set(re.findall(r"\b(?:sandpiper_\w+|[A-Z]+_[A-Z_]+)\b", text_of(path)))

    def add(self, name, *owners):
        self.all.add(name)
        self.declared.setdefault(self.file, set()).add(name)
        for owner in owners:
            self.of.setdefault(owner, set()).add(name)

    def read_logic(self, path, crate):
        """The definitions, fields and constructors of a module of the logic."""
        module = re.sub(r"\.antt$", "", path.split("/")[-1])
        owner = module
        for line in text_of(path).split("\n"):
            name = re.match(r"(?:abbrev |unfoldable )?(?:pub )?(?:abbrev |unfoldable |record |data )?([^\s:(){}]+)", line)
            if name and re.match(r"(abbrev|unfoldable|pub|record|data)\b", line) and not line.startswith("pub mod"):
                owner = name[1]
                self.add(owner, module, crate, (crate, module))
            field = re.match(rf"\s+(?:pub )?({IDENTIFIER}) :", line)
            if field:
                self.add(field[1], module, owner)

    def read_code(self, path, crate):
        """The types, functions, constants, variants, fields and clauses of a file of the code."""
        module, owner, kind = re.sub(r"\.rt$", "", path.split("/")[-1]), None, None
        for line in text_of(path).split("\n"):
            head = re.match(rf"(?:pub(?:\([a-z]+\))? )?(struct|enum|trait|type|const|static|mod) ({IDENTIFIER})", line)
            block = re.match(rf"impl\b(?:<.*?>)?\s+(?:.* for )?({IDENTIFIER})", line)
            if head:
                owner, kind = head[2], head[1]
                self.add(owner, module, crate)
            elif block:
                owner, kind = block[1], "impl"
            elif line.startswith("}"):
                owner = None
            function = re.match(rf"\s*(?:pub(?:\([a-z]+\))? )?(?:const )?fn ({IDENTIFIER})", line)
            if function:
                self.add(function[1], module, *([owner] if owner else [crate]))
            member = re.match(rf"    (?:pub(?:\([a-z]+\))? )?(?:const )?({IDENTIFIER})(?:\(|,|:| \{{| =)", line)
            if member and owner and kind in ("struct", "enum", "impl"):
                self.add(member[1], owner)
            clause = re.match(rf"\s*(?:requires|ensures) ({IDENTIFIER}) \{{", line)
            if clause:
                self.all.add(clause[1])
            self.all |= set(re.findall(rf"\blet (?:mut )?({IDENTIFIER})", line)) | set(re.findall(rf'b?"({IDENTIFIER})"', line))
            self.all |= set(re.findall(rf"\b({IDENTIFIER}): &", line)) | set(re.findall(rf"b\"({IDENTIFIER})[ \"]", line))

    def has_path(self, word):
        """Whether a word is a file or folder of the repository, whole or by its last parts, with NAME or * for anything."""
        word = re.sub(r"^(\.\./)+|^\./", "", word).rstrip("/")
        if "out" in word.split("/") or word.startswith("PREFIX/"):  # what is built, or installed, is not kept
            return True
        pattern = re.escape(word).replace(r"\*", "[^/]*").replace("NAME", "[^/]*")
        if word in self.paths:
            return True
        return any(re.search(rf"(^|/){pattern}$", path) for path in self.paths)


def looks_like_path(word):
    return "/" in word.strip("/") or re.search(rf"\.({'|'.join(ENDINGS)})$", word) is not None


def is_name(word, capital):
    """Whether a word of running code is meant as a name of ours: it has an underscore, or a second capital; in Rust, if it has one."""
    return "_" in word.strip("_") or re.fullmatch(r"[A-Z][a-z]+" + ("" if capital else "[A-Z]") + r"\w*", word) is not None


def unknown(names, word):
    """What is wrong with a word in backticks, if anything is."""
    if not word or word in names.all or re.fullmatch(PLACEHOLDER, word):
        return None
    if word.startswith("_") and any(name.endswith(word) for name in names.all):
        return None
    if looks_like_path(word) and re.fullmatch(r"[\w.*/~-]+", word):
        return None if word.startswith(("/", "~")) or names.has_path(word) else "is no file of the repository"
    call = re.fullmatch(rf"({IDENTIFIER}(?:(?:::|\.){IDENTIFIER})*)(?:\(.*\))?", word)
    if call:
        parts = re.split(r"::|\.", call[1])
        for owner, name in zip(parts, parts[1:]):
            if owner in names.of and name not in names.of[owner]:
                return f"is not in `{owner}`"
        wrong = [part for part in parts if part not in names.all]
        return f"names nothing: {', '.join(wrong)}" if wrong else None
    return unknown_in_code(names, word)


def unknown_in_code(names, code, capital=False):
    """The words of a line of code that look like names of ours and are none."""
    code = re.sub(r"\"[^\"]*\"|//.*|\bfn \w+", "", code)
    paths = [word for word in re.split(r"[\s<>|`,;()]+", code) if looks_like_path(word) and re.fullmatch(r"[\w.*/-]+", word)]
    wrong = [word for word in paths if not word.startswith("/") and not names.has_path(word)]
    for word in paths:
        code = code.replace(word, " ")
    wrong += [word for word in re.findall(IDENTIFIER, code) if is_name(word, capital) and word not in names.all]
    return f"names nothing: {', '.join(wrong)}" if wrong else None


def slug(heading):
    """The anchor of a heading."""
    heading = re.sub(r"[`*]|\[([^\]]*)\]\([^)]*\)", r"\1", heading).strip().lower()
    return re.sub(r"[^\w\- ]", "", heading).replace(" ", "-")


def anchors(path):
    return {slug(line.lstrip("#")) for line in text_of(path).split("\n") if line.startswith("#")}


def bad_link(page, target):
    if re.match(r"[a-z]+:", target):
        return None
    path, _, anchor = target.partition("#")
    there = os.path.normpath(os.path.join(os.path.dirname(page), path)) if path else page
    if not os.path.exists(there):
        return f"the link {target} leads nowhere"
    if anchor and there.endswith(".md") and anchor not in anchors(there):
        return f"the link {target} leads to no heading"
    return None


def told(example):
    """The lines and answers of an example's page, one after another."""
    sys.path.insert(0, "examples")
    import check  # examples/check.py

    return [cell for line, answer in check.rows(f"examples/{example}.md") for cell in [line, *answer] if cell]


def cells(block):
    """The cells of a block: columns are two spaces or more apart, and what is right of a bar comes after all that is left of it."""
    halves = [line.split("|") for line in block]
    columns = [[half[n] for half in halves if n < len(half)] for n in range(max(map(len, halves), default=0))]
    return [cell.strip() for column in columns for row in column for cell in re.split(r"\s{2,}", row.strip()) if cell.strip()]


def is_part(part, whole):
    return any(whole[n : n + len(part)] == part for n in range(len(whole) - len(part) + 1))


def pieces(text):
    """The parts of a page: each line with its number, what it is, and the example that a block is from."""
    fenced, example, language, in_list = None, None, "", False
    for number, line in enumerate(text.split("\n"), 1):
        if line.strip() and not line.startswith(" "):
            in_list = re.match(r"([-*]|\d+\.)\s", line) is not None
        quoted = re.fullmatch(r"<!-- from examples/(\w+) -->", line.strip())
        if re.match(r"\s*```", line):
            language = line.strip("` ") if fenced is None else ""
            if fenced is None:
                fenced = example or ""
            else:
                fenced = example = None
            yield number, "fence", fenced, line
        elif fenced is not None:
            yield number, "rust" if language == "rust" else "code", fenced, line
        elif quoted:
            example = quoted[1]
            yield number, "quote", example, line
        elif line.startswith("    ") and not in_list:
            yield number, "code", "", line
        else:
            yield number, "text", "", line


def words_of(promise):
    return len(re.sub(r"`[^`]*`", "name", promise).split())


def promises(names, text):
    """What is wrong with the rows of docs/guarantees.md."""
    crates = []
    for number, line in enumerate(text.split("\n"), 1):
        cells_of = [cell.strip() for cell in line.strip("|").split("|")]
        if line.startswith("#"):
            crates = []
        if not line.startswith("| "):
            crates += [word for word in re.findall(r"`(\w+)`", line) if f"crates/{word}/src" in names.paths]
            continue
        if words_of(cells_of[0]) > PROMISE:
            yield number, f"the promise has {words_of(cells_of[0])} words"
        if len(cells_of) < 3 or line.startswith(("| promise", "|---")):
            continue
        for module, name in re.findall(r"`(\w+)\.(\w+)`", " ".join(cells_of[1:-1])):
            if not any(name in names.of.get((crate, module), ()) for crate in crates):
                yield number, f"`{module}.{name}` is in none of {', '.join(crates)}"
        law = re.fullmatch(r"law `\w+\.(\w+)`", cells_of[1])
        function = re.sub(r"(?<!^)(?=[A-Z])", "_", law[1]).lower() if law else None
        if law and not any(function in names.of.get(crate, ()) for crate in crates):
            yield number, f"no law is called {function}"
        for edit in re.findall(r"`(\w+)`", cells_of[-1]):
            if not any(f"crates/{crate}/{folder}/{edit}.edit" in names.paths for crate in crates for folder in ("by-function", "audit")):
                yield number, f"`{edit}` is an edit of none of {', '.join(crates)}"


def faults(names, page):
    """What is wrong with a page: line numbers and what to say."""
    text, block, began, example = text_of(page), [], 0, ""
    if page == "docs/guarantees.md":
        yield from promises(names, text)
    yield from sentences.long_sentences(pieces(text))
    yield from places.misplaced(names, page, pieces(text))
    yield from places.lost_lines(pieces(text))
    yield from places.wrong_drawings(pieces(text), told)
    if page == "README.md":
        yield from places.wrong_costs(page)
    if page == "docs/glossary.md":
        yield from places.strange_words(names, page)
    for number, line in enumerate(text.split("\n"), 1):
        if len(line) >= WIDTH:
            yield number, f"the line has {len(line)} columns"
    for number, kind, source, line in pieces(text):
        if kind == "fence":
            if block and example and not is_part(cells(block), told(example)):
                yield began, f"this is no part of examples/{example}.md"
            block, began, example = [], number, source or ""
        elif kind in ("code", "rust"):
            block.append(line)
            wrong = None if example else unknown_in_code(names, line, kind == "rust")
            if wrong:
                yield number, wrong
        elif kind == "quote" and not os.path.exists(f"examples/{source}.md"):
            yield number, f"there is no examples/{source}.md"
        elif kind == "text":
            for target in re.findall(r"\]\(([^)\s]+)\)", re.sub(r"`[^`]*`", "", line)) + re.findall(r"`\]\(([^)\s]+)\)", line):
                wrong = bad_link(page, target)
                if wrong:
                    yield number, wrong
            if line.startswith("|") and (page.startswith("examples/") or page == NOTATION):
                continue
            for word in re.findall(r"`([^`]+)`", line):
                wrong = unknown(names, word)
                if wrong:
                    yield number, f"`{word}` {wrong}"


def stale_edits():
    """Each edit that cannot be made any more, as another line of a page that is wrong."""
    for edit in audit.edits_of("crates/*"):
        _, made = audit.changed("/".join(edit.split("/")[:2]), [{"pairs": audit.pairs_of(edit)}])
        if not made:
            yield edit, 1, "a text that it replaces is not in its file once"


def pages():
    folders = ("docs", "bench", "bench/c", "examples", "tools", "tests", "crates/*")
    return ["README.md", "CONTRIBUTING.md"] + [path for folder in folders for path in sorted(glob.glob(f"{folder}/*.md"))]


def main():
    names = Names(tracked())
    wrong = [(page, *fault) for page in filter(os.path.exists, pages()) for fault in sorted(set(faults(names, page)))]
    wrong += figures.wrong()
    wrong += refusals.wrong()
    wrong += fault_words.wrong()
    wrong += sentences.wrong()
    wrong += stale_edits()
    for page, number, what in wrong:
        print(f"{page}:{number}: {what}")
    count = len(wrong)
    if sys.argv[1:]:
        count += subprocess.run([sys.executable, "examples/check.py", sys.argv[1]], check=False).returncode != 0
    print(f"{count} wrong" if count else "the documents agree with the repository")
    sys.exit(1 if count else 0)


if __name__ == "__main__":
    main()
