"""Where a page says that something stands. tools/check_docs.py asks it of each document.

- The words of a link to a file of crates/ are that file's name, its crate or its module, or a name that the file declares.
- A name before the file in brackets, as in `Engine::step` (`crates/session_core/src/engine.rt`), is declared in that file. So is one
  before a link in brackets, and each of several with commas.
- A name in docs/glossary.md is declared in a crate that stands behind it.
- A line with a minus, in a block of code, is in the file of crates/ that the page names last before it.
- A drawing of slots has the ids, redirects and empty slots of the example from which the page quotes last before it.
- Each figure in the table of costs of README.md is on the page to which its row, or one above, leads: in a row with the first of them, or
  in a paragraph.
"""
import os
import re

from docs import sentences

LINK = re.compile(r"\[`([^`]+)`\]\(([^)#\s]+)\)")
NAMED = re.compile(r"((?:`[A-Za-z_][\w:.]*`(?:, (?:and )?| and |\s+))+)\((?:in )?(?:`(crates/[\w/]+\.\w+)`|\[`[\w.]+`\]\(([^)#\s]+)\))")


def text_of(path):
    with open(path, encoding="utf-8") as file:
        return file.read()


def target_of(page, link):
    """The file of crates/ to which a link of a page leads, if it does."""
    there = os.path.normpath(os.path.join(os.path.dirname(page), link))
    return there if there.startswith("crates/") and os.path.isfile(there) else None


def is_declared(names, word, path):
    """Whether a file declares a name: that of a function with its type before it, and of a clause too."""
    parts = re.split(r"::|\.", word)
    here = names.declared.get(path, set())
    owned = all(name in names.of.get(owner, {name}) for owner, name in zip(parts, parts[1:]))
    return parts[-1] in here and owned


def is_called_so(names, word, path):
    """Whether a link may have these words: the file's name, its module, its crate, or a name in it."""
    file = os.path.basename(path)
    return f"/{word}/" in f"/{path}/" or word in (file.split(".")[0], path.split("/")[1]) or is_declared(names, word, path)


def misplaced(names, page, parts):
    """Names that the file does not declare in which the page says that they stand."""
    for number, block in sentences.blocks(parts):
        for word, link in LINK.findall(block):
            path = target_of(page, link)
            if path and path.endswith((".rt", ".antt")) and not is_called_so(names, word, path):
                yield number, f"`{word}` is not in {path}"
        for words, path, link in NAMED.findall(block):
            path = path or target_of(page, link)
            for word in re.findall(r"`([^`]+)`", words) if path else ():
                if not is_declared(names, word, path):
                    yield number, f"`{word}` is not in {path}"


def strange_words(names, page):
    """Names of the glossary that no crate declares which stands behind them."""
    for number, line in enumerate(text_of(page).split("\n"), 1):
        found = re.search(r"\| ([^|]*) \((`\w+`(?:, `\w+`)*)\) \|$", line)
        crates = tuple(f"crates/{crate}/" for crate in re.findall(r"`(\w+)`", found[2])) if found else ()
        declared = {name for path, those in names.declared.items() if crates and path.startswith(crates) for name in those}
        for word in re.findall(r"`([^`]+)`", found[1]) if found else ():
            if re.split(r"::|\.", word)[-1] not in declared:
                yield number, f"`{word}` is not of {found[2]}"


def lost_lines(parts):
    """Lines of a page's difference that are not in the file that it names."""
    path = None
    for number, kind, _, line in parts:
        named = re.findall(r"crates/[\w/]+\.(?:rt|antt)", line)
        if kind == "text" and named:
            path = named[-1]
        removed = re.match(r"\s*-\s+(\S.*)", line) if kind == "code" else None
        if removed and path and removed[1].strip() not in [it.strip() for it in text_of(path).split("\n")]:
            yield number, f"this line is not in {path}"


def slots_in(block):
    """What a drawing says of slots, as the lines of a page have it: each slot stands above what it holds."""
    at = {}
    for line in block:
        slots = {found.start(): found[1] for found in re.finditer(r"\bslot (\d+)", line)}
        at = slots if len(slots) > 1 else at
        for found in re.finditer(r"\bxmin (\d+)  xmax (\d+)|\bredirect (\d+)|\bdead\b|\bunused\b", line):
            if found.start() in at and not slots:
                yield f"{at[found.start()]} " + (f"normal {found[1]} {found[2]}" if found[1] else found[0])


def wrong_drawings(parts, told):
    """Drawings that show other slots than the example from which the page quotes last before them."""
    block, example, shown, began = [], None, None, 0
    for number, kind, source, line in parts:
        drawn = re.fullmatch(r"<!-- (?:drawn )?from examples/(\w+) -->", line.strip())
        example = drawn[1] if drawn else example
        if kind == "fence":
            for slot in slots_in(block) if not source else ():
                shown = told(example) if example else []
                if not any(f"{cell} ".startswith(f"{slot} ") for cell in shown):
                    yield began, f"no page of examples/{example}.md shows {slot}"
            block, began = [], number
        elif kind == "code":
            block.append(line)


def wrong_costs(page):
    """Figures of the table of costs that the linked page has neither in a row beside the first one nor in a paragraph."""
    text, link = text_of(page), None
    begin = text.index("## What it costs")
    for at, row in enumerate(text[begin:].partition("\n\n")[0].split("\n")[3:], text.count("\n", 0, begin) + 4):
        link = (re.search(r"\]\(([^)#]+)", row) or [None, link])[1]
        cells = [set(re.findall(r"\d[\d,]*\d|\d", cell)) for cell in re.sub(r"\]\([^)]*\)", "", row).strip("| ").split(" | ")]
        there = [(line, set(re.findall(r"\d[\d,]*\d|\d", line))) for line in text_of(link).split("\n")]
        beside = set().union(*(found for line, found in there if not line.startswith("|") or cells[1] <= found))
        for figure in sorted(set().union(*cells) - beside):
            yield at, f"{link} does not have {figure} beside {', '.join(cells[1])}"
