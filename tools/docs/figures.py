"""Figures of the documents that the repository can be asked for. tools/check_docs.py compares them; each says where it is wrong.

The places: docs/trust.md (lines of definitions), README.md (the bands of the picture, the star), bench/gate.md (edits of each crate, and
the most that there may be), docs/callers.md (the calls of the header), docs/DECISIONS.md (how large a crate may be, those that
may be larger until they are cut, and which crates lead there), docs/postgresql.md (what docs/rules.md calls ours), and
docs/invariants.md (the types that have one).
"""
import glob
import re

import affected
import definitions

EMPTY = re.compile(r"\{\}\s*$", re.M)
FUNCTION = re.compile(r"^\s*(?:pub(?:\(\w+\))? )?(?:const )?fn ", re.M)
WORDS = "zero one two three four five six seven eight nine ten eleven twelve".split()


def text_of(path):
    with open(path, encoding="utf-8") as file:
        return file.read()


def line_of(text, at):
    return text.count("\n", 0, at) + 1


def number(word):
    """A number in digits, with commas or without, or in words."""
    return WORDS.index(word.lower()) if word.lower() in WORDS else int(word.replace(",", ""))


def code_of(crate):
    """The code of a crate, without comments."""
    paths = glob.glob(f"crates/{crate}/src/**/*.rt", recursive=True)
    return re.sub(r"^\s*//.*\n", "", "\n".join(map(text_of, paths)), flags=re.M)


def is_of_laws(code):
    """Whether each function of a crate does nothing."""
    return len(FUNCTION.findall(code)) == len(EMPTY.findall(code))


def edits_of(crate, folder="*"):
    return len(glob.glob(f"crates/{crate}/{folder}/*.edit"))


def trust():
    """docs/trust.md: before each command of tools/definitions.py the lines that this prints, the edits, and what a `stdout` has."""
    page, known = text_of("docs/trust.md"), definitions.modules()
    for row in re.finditer(r"^\|.*`(crates/\w+/stdout)`.*$", page, re.M):
        for figure in re.findall(r"\d[\d,]*\d", row[0]):
            if not re.search(rf"\b{number(figure)}\b", text_of(row[1])):
                yield line_of(page, row.start()), f"{row[1]} has no {figure}"
    tried = re.search(r"^\| wrong edits .*?\| ([\d,]+) \|", page, re.M)
    if number(tried[1]) != sum(map(edits_of, affected.crates())):
        yield line_of(page, tried.start()), f"there are {sum(map(edits_of, affected.crates()))} edits"
    said = 0
    for command in re.finditer(r"`python3 tools/definitions.py ?([^`]*)`", page):
        text, said = page[said : command.start()], command.end()
        counts = {crate: lines for crate, lines, _ in definitions.counted(known, command[1].split() or definitions.PUBLIC)}
        wholes = re.findall(r"\b([\d,]+) lines", text)
        crates = re.findall(r"\bof (\d+) crates", text)
        figures = [(n, crate, counts.get(crate)) for n, crate in re.findall(r"\b(\d+)\s+in\s+`(\w+)`", text)]
        for n, what, want in figures + [(n, "all", sum(counts.values())) for n in wholes[-1:]]:
            if number(n) != want:
                yield line_of(page, command.start()), f"{n} lines of {what}: tools/definitions.py prints {want}"
        if crates and number(crates[-1]) != len(counts):
            yield line_of(page, command.start()), f"{crates[-1]} crates: tools/definitions.py prints {len(counts)}"
        if not wholes:
            yield line_of(page, command.start()), "no number of lines stands before this command"


def picture(page, uses):
    """The bands of the picture in README.md, from the highest: each with its crates, and whether a star is beside them."""
    bands = []
    for line in page[page.index("## The layers") :].split("```")[1].strip("\n").split("\n"):
        if not line.startswith(" "):
            bands.append({})
        for cell in re.split(r"\s{2,}", line):
            crate = re.match(r"(\w+)(?: ?(\*))?(?= |$)", cell)
            if crate and crate[1] in uses:
                bands[-1][crate[1]] = crate[2] is not None
    return bands


def layers():
    """README.md: each crate is there, uses its band and those below, but as it is said, and has a star where it has laws alone."""
    page, uses = text_of("README.md"), affected.crates()
    bands, at = picture(page, uses), line_of(page, page.index("## The layers"))
    below = page[page.index("\nA crate uses") :].partition("\n\n")[0]
    level = {crate: n for n, band in enumerate(bands) for crate in band if crate in uses}
    upward = {(crate, low) for crate in level for low in uses[crate] if level.get(low, len(bands)) < level[crate]}
    named = re.findall(r"((?:`\w+`(?:,\s+|\s+and\s+)?)+)\s+uses?\s+`(\w+)`", below)
    said = {(crate, low) for crates, low in named for crate in re.findall(r"`(\w+)`", crates)}
    for crate, low in sorted(upward ^ said):
        yield at, f"`{crate}` " + (f"uses `{low}`, of a higher band" if (crate, low) in upward else f"uses no `{low}` above it")
    starred = {crate for band in bands for crate, star in band.items() if star}
    besides = re.findall(r"`(\w+)`", (re.search(r"A star.*?\.", below, re.S) or [""])[0])
    for crate in uses:
        if crate.startswith("test_"):
            continue
        if crate not in level and f"`{crate}`" not in below:
            yield at, f"`{crate}` is neither in the picture nor below it"
        elif crate in level and (crate in starred) != is_of_laws(code_of(crate)) and crate not in besides:
            yield at, f"`{crate}` has laws and definitions alone and no star, or the other way round"


def sizes():
    """docs/DECISIONS.md: no crate has more lines of code than it says, but for those that it names, which have no more than it says."""
    page = text_of("docs/DECISIONS.md")
    rule = re.search(r"- \*\*A crate's size.*?(?=\n- |\n\n)", page, re.S)
    most = number(re.search(r"([\d,]+) lines of code", rule[0])[1])
    may = {crate: number(n) for crate, n in re.findall(r"`(\w+)`\s+\(([\d,]+)\)", rule[0])}
    for crate in affected.crates():
        lines = sum(bool(line.strip()) for line in code_of(crate).split("\n"))
        if lines > may.get(crate, most):
            yield line_of(page, rule.start()), f"`{crate}` has {lines} lines of code, and may have {may.get(crate, most)}"
        elif crate in may and lines <= most:
            yield line_of(page, rule.start()), f"`{crate}` has {lines} lines of code, and is no longer to be named"


def heads():
    """docs/DECISIONS.md: the head of a crate leads there where, and only where, something stands under its name."""
    page = text_of("docs/DECISIONS.md")
    named = {crate for heading in re.findall(r"^### (.*)", page, re.M) for crate in re.findall(r"`(\w+)`", heading)}
    for path in sorted(glob.glob("crates/*/src/lib.rt") + glob.glob("crates/*/src/main.rt")):
        leads = "docs/DECISIONS.md, under its name" in text_of(path).partition("\n#![")[0]
        if leads != (path.split("/")[1] in named):
            yield 1, f"{path} " + ("leads here, and nothing stands under its name" if leads else "does not lead here, where something does")


def edits():
    """bench/gate.md: the edits of each crate; none has more, nor have all, than docs/gate.md says."""
    page, left = text_of("bench/gate.md"), set(affected.crates())
    one, most = re.search(r"at most (\d+) edits in `by-function/`, the repository (\d+)", text_of("docs/gate.md")).groups()
    tried = {crate: edits_of(crate, "by-function") for crate in left}
    for crate, count in [*sorted(tried.items()), ("all", sum(tried.values()))]:
        if count > number(most if crate == "all" else one):
            yield 1, f"{crate}: {count} edits in the gate"
    rows = [(found.start(), found[1], found[2]) for found in re.finditer(r"^\| (.*?) \|(?:[^|\n]*\|){4} *(\d*) \|", page, re.M)]
    for at, first, count in [row for row in rows if "`" in row[1]] + [row for row in rows if "`" not in row[1] and row[1] != "crate"]:
        crates = re.findall(r"`(\w+)`", first)
        if not crates:
            crates = [it for it in left if "tests" in first and it.startswith("test_") or "laws" in first and is_of_laws(code_of(it))]
            if first != "all" and number(first.split()[0]) != len(crates):
                yield line_of(page, at), f"these are {len(crates)}"
        left -= set(crates)
        want = sum(map(edits_of, affected.crates() if first == "all" else crates))
        if number(count or "0") != want:
            yield line_of(page, at), f"{first} has {want} edits"
    if left:
        yield 1, f"no row has {', '.join(sorted(left))}"


def differences():
    """docs/postgresql.md: it leads to each section of docs/rules.md that calls something ours."""
    rules, page = text_of("docs/rules.md"), text_of("docs/postgresql.md")
    for section in re.findall(r"^## (.*\n(?:(?!## ).*\n)*)", rules, re.M):
        title = section.partition("\n")[0]
        if re.search(r"\bours\b", section) and f"(rules.md#{title.lower().replace(' ', '-')})" not in page:
            yield 1, f"no row leads to the section {title} of docs/rules.md"


def calls():
    """docs/callers.md: how many calls the header declares."""
    count = len(re.findall(r"^uint32_t sandpiper_\w+\(", text_of("include/sandpipercot.h"), re.M))
    page = text_of("docs/callers.md")
    for said in re.finditer(r"(\w+) calls\b", page):
        if (said[1].isdigit() or said[1] in WORDS) and number(said[1]) != count:
            yield line_of(page, said.start()), f"the header declares {count} calls"


def invariants():
    """docs/invariants.md: it names each type of the code that has an invariant."""
    page = text_of("docs/invariants.md")
    for path in sorted(glob.glob("crates/*/src/**/*.rt", recursive=True)):
        code = text_of(path)
        for found in re.finditer(r"ghost invariant = ", code):
            kind = re.findall(r"^impl\b(?:<[^\n]*?>)?\s+(?:\w+(?:<.*?>)? for )?(\w+)", code[: found.start()], re.M)[-1]
            if f"`{kind}`" not in page:
                yield 1, f"the invariant of `{kind}` is missing ({path})"


def wrong():
    """Each figure that is wrong: the page, the line, and what to say."""
    places = [("docs/trust.md", trust), ("README.md", layers), ("docs/DECISIONS.md", sizes), ("docs/DECISIONS.md", heads)]
    places += [("bench/gate.md", edits), ("docs/callers.md", calls), ("docs/postgresql.md", differences)]
    for page, asked in [*places, ("docs/invariants.md", invariants)]:
        yield from ((page, *found) for found in asked())
