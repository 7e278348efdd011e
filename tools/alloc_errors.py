#!/usr/bin/env python3
"""Says where the code makes an error of the allocator by hand, or keeps memory that nobody can give back.

A contract can say that more was asked for than there was room for, but not that memory was really lacking: the allocator alone
knows. So such an error has to come from a call. Nor can a contract say that what is let go is given back. This reads
crates/*/src/*.rt, but for the crates of tests (test_*), the modules under #[cfg(test)], comments, and ghost and contract lines. It
refuses

- `AllocError` as an expression, as in `Err(AllocError)`, `=> AllocError` or `return AllocError`: pass on what the call answered,
  by `?` or by `Err(error) => return Err(error)`;
- the NoMemory of an enum as an expression, that of `judge`, the OutOfMemory of `reply_text`, or the RefusedGrowth of
  `script_text`, unless it answers a call that failed: in the arm
  of an `Err(..)`, in a `map_err(..)`, in a block behind `is_err()` or behind the `else` of a `let Ok(..)`, in an
  `impl From<AllocError>`, as one NoMemory turned into another's, or in the pattern of a `matches!`. (`no_memory` of
  crates/script/src/io_log.rt makes one for its callers, which call it where a call failed. That of crates/judge/src/due.rt names it as
  what some engine may answer.)
  `reply_text` reads the word NoMemory in a reply, and makes no error of it.
- `mem::forget`, `ManuallyDrop`, `leak` and `into_raw`, by which memory is never given back. (`Block` of
  crates/c_handles/src/block.rt takes a box apart, and makes it again.)
- a `reserve` or `try_reserve` of a fixed number over 99999, or of the largest of a type: no memory has so much, so it is refused.
  (`ask_for_too_much` of crates/root_index/src/index.rt does that where more entries than a u64 can count are asked for.)

Run it at the top of the repository, with no words: python3 tools/alloc_errors.py. It prints a line for each place, and ends
with status 1 where there is one.
"""

import pathlib
import re
import sys

GHOST = re.compile(r"\s*(ghost|requires|ensures)\b")
BY_HAND = re.compile(r"(\(|=>|=|\breturn|\{|^)\s*(\w+::)*AllocError\s*(\(\s*\))?\s*(\)|,|;|\}|$)")
VALUE = re.compile(
    r"\b[A-Z]\w*::NoMemory\b(?!\s*\)*\s*(=>|\|))|\bErr\((NoMemory|OutOfMemory)\)(?!\s*\)*\s*(=>|\|))"
    r"|\bREFUSED\b(?!:)|(?<!struct )(?<!: RefusedGrowth = )\bRefusedGrowth \{"
)
FAILED = re.compile(r"\bErr\((_|\w+|[\w:]+::NoMemory)\)(\s+if\b[^>]*)?\s*=>|\bNoMemory\b\)*\s*=>|map_err\(|\.is_err\(\)|\blet\s+.*\bOk\(.*\belse\b")
KEPT = re.compile(r"\bmem::(\{[^}]*\b)?forget\b|\bManuallyDrop\b|\bleak\(|\binto_raw\(")
KEEPS = "crates/c_handles/src/block.rt"
READS = ("crates/reply_text/src/refusals.rt", "Some(Refusal::NoMemory)")
TOO_MUCH = re.compile(r"reserve\w*\([^;]*(\b\w+::MAX\b|\b[\d_]{6,}\b|<<)")
ASKS_TOO_MUCH = re.compile(r"\bfn ask_for_too_much\b")
MAKES = re.compile(r"\bimpl\b.*\bFrom<AllocError>|\bfn no_memory\b")


def bare(text):
    """The lines without strings and comments."""
    lines = []
    for line in text.splitlines():
        line = re.sub(r"'\"'|\"(\\.|[^\"\\])*\"", '""', line)
        lines.append(re.sub(r"//.*", "", line))
    return lines


def without_patterns(lines):
    """The lines without what stands behind the comma of a `matches!`: a pattern makes no error."""
    text, at = "\n".join(lines), 0
    while (at := text.find("matches!(", at)) >= 0:
        at += len("matches!(")
        depth, end, comma = 1, at, None
        while depth and end < len(text):
            depth += {"(": 1, ")": -1}.get(text[end], 0)
            if text[end] == "," and depth == 1 and comma is None:
                comma = end
            end += 1
        if comma is not None:
            text = text[:comma] + re.sub(r"[^\n]", " ", text[comma : end - 1]) + text[end - 1 :]
    return text.split("\n")


def with_heads(lines):
    """Each line's number, the line, and the heads of the blocks that it stands in, the innermost last."""
    stack, head = [], ""
    for number, line in enumerate(lines, 1):
        yield number, line, list(stack)
        if GHOST.match(line):
            continue
        for part in re.split(r"([{};,])", line):
            if part == "{":
                stack.append(head)
                head = ""
            elif part == "}":
                del stack[-1:]
                head = ""
            elif part in ";,":
                head = "" if part == ";" or not head.lstrip().startswith(("let", "if", "fn", "pub", "impl")) else head
            else:
                head += " " + part.strip()


def is_wrong(line, heads):
    if GHOST.match(line) or re.match(r"\s*(pub\s+)?use\b", line):
        return False
    if any("#[cfg(test)]" in head or re.match(r"\s*(pub\s+)?use\b", head) for head in heads):
        return False
    if any(MAKES.search(head) for head in heads):
        return False
    if BY_HAND.search(line):
        return True
    near = heads[-1] if heads else ""
    return bool(VALUE.search(line)) and not FAILED.search(line) and not FAILED.search(near + " {")


def is_kept(path, line, heads):
    """Whether the line lets go of memory that is never given back, or asks for more than there is."""
    if KEPT.search(line):
        return path != KEEPS
    if TOO_MUCH.search(line):
        return not any(ASKS_TOO_MUCH.search(head) for head in heads)
    return "ask_for_too_much(" in line and not ASKS_TOO_MUCH.search(line) and "u64::MAX" not in (heads[-1] if heads else "")


def main():
    top = pathlib.Path(__file__).resolve().parent.parent
    wrong = []
    for path in sorted(top.glob("crates/*/src/**/*.rt")):
        if path.relative_to(top).parts[1].startswith("test_"):
            continue
        name = str(path.relative_to(top))
        for number, line, heads in with_heads(without_patterns(bare(path.read_text(encoding="utf-8")))):
            if (name, line.strip()) != READS and is_wrong(line, heads) or not GHOST.match(line) and is_kept(name, line, heads):
                wrong.append(f"{name}:{number}: {line.strip()}")
    print("\n".join(wrong) if wrong else "no error of the allocator is made by hand, and no memory is kept for good")
    return 1 if wrong else 0


if __name__ == "__main__":
    sys.exit(main())
