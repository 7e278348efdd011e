"""Refusals and statuses: their numbers, names and meanings, wherever they are written. tools/check_docs.py calls it.

The table of refusals in docs/rules.md is the one that counts. With it are compared: `Refusal` of the crate calls, whose comments have
the meanings; the number and name in a script's answers (code, definitions); the number that C has (code, definitions, header, Python); and
the cases of tests/callers/statuses.c. Statuses that are no refusals are compared in the same places.
"""
import re

TABLE = "docs/rules.md"


def text_of(path):
    with open(path, encoding="utf-8") as file:
        return file.read()


def pairs(path, pattern):
    """What a file has as (name, number): the pattern's groups `name` and `number`. Of the header only the enum of statuses counts."""
    text = text_of(path)
    if path.endswith(".h"):
        text = text[text.index("enum sandpiper_status {") :].partition("}")[0]
    return {found["name"]: int(found["number"]) for found in re.finditer(pattern, text, re.M)}


def upper(name):
    """The name that C and Python have: NO_SUCH_PAGE of NoSuchPage."""
    return re.sub(r"(?<=[a-z])(?=[A-Z])", "_", name).upper()


def table():
    """The rows of the table: of each refusal the number in a script, that in C, and the meaning."""
    rows = re.findall(r"^\| (\d+) \| (\d+) \| (\w+) \| (.*) \|$", text_of(TABLE), re.M)
    return {name: (int(number), int(status), means) for number, status, name, means in rows}


def meanings():
    """Of each variant of `Refusal` what its comment says up to the first colon or full stop."""
    code = text_of("crates/calls/src/reply.rt")
    code = code[code.index("pub enum Refusal {") :].partition("\n}")[0]
    found = re.findall(r"((?:^    /// .*\n)+)    (\w+)[(,]", code, re.M)
    said = {name: re.sub(r"\s*///\s*", " ", comment).strip() for comment, name in found}
    return {name: re.split(r"[.:]", comment)[0] for name, comment in said.items()}


def places(rows):
    """Each place that has numbers: its file, what it has, and what it should have."""
    script = {name: number for name, (number, _, _) in rows.items()}
    status = {name: number for name, (_, number, _) in rows.items()}
    yield "crates/script_text/src/answer.rt", r'b"(?P<number>\d+) (?P<name>[A-Z]\w+) ?"', script
    yield "crates/script_text/specs/Answers.antt", r'codes "(?P<number>\d+) (?P<name>[A-Z]\w+)"', script
    code, logic = "crates/c_handles/src/status.rt", "crates/c_handles/specs/CallStatus.antt"
    yield code, r"Refusal::(?P<name>\w+)(?:\(\w+\))? => (?P<number>\d+)", status
    yield logic, r"number_of_refusal \(?refusal\.(?P<name>\w+)(?: \w+\))? = (?P<number>\d+)", status
    other = pairs(code, r"CallStatus::(?P<name>\w+) => (?P<number>\d+)")
    yield logic, r"number_of_status status\.(?P<name>\w+) = (?P<number>\d+)", other
    every = {upper(name): number for name, number in {**status, **other}.items()}
    yield "include/sandpipercot.h", r"^ +SANDPIPER_(?P<name>[A-Z_]+) = (?P<number>\d+)", every
    yield "python/sandpipercot/statuses.py", r"^    (?P<name>[A-Z_]+) = (?P<number>\d+)", every


def names(rows):
    """Each place that has names alone: its file, what it has, and what it should have."""
    page = text_of(TABLE).partition("## The order of tests")[2].partition("NoMemory comes")[0]
    yield TABLE, set(re.findall(r"\b[A-Z][a-z]+(?:[A-Z][a-z]+)+\b", page)) - set(rows), set()
    python = "python/sandpipercot/statuses.py"
    classes = re.findall(r'^class (\w+)\(Refused.*?^    status = Status\.(\w+)$', text_of(python), re.M | re.S)
    yield python, {(name, status) for name, status in classes if name in rows}, {(name, upper(name)) for name in rows}
    cases = set(re.findall(r"CASE\(([A-Z_]+), ", text_of("tests/callers/statuses.c")))
    yield "tests/callers/statuses.c", cases, set(pairs(python, r"^    (?P<name>[A-Z_]+) = (?P<number>\d+)"))


def wrong():
    """Each number, name or meaning that is not the table's: the page, the line, and what to say."""
    rows = table()
    said = meanings()
    for name in sorted(rows.keys() ^ said.keys()):
        yield TABLE, 1, f"{name} is in the table or in `Refusal`, and not in both"
    for name in sorted(rows.keys() & said.keys()):
        if rows[name][2] != said[name]:
            yield TABLE, 1, f"{name} means: {said[name]}"
    for path, pattern, want in places(rows):
        has = pairs(path, pattern)
        for name in sorted(has.keys() | want.keys()):
            if has.get(name) != want.get(name):
                yield path, 1, f"{name} has the number {has.get(name)}, in {TABLE} or the code {want.get(name)}"
    for path, has, want in names(rows):
        for name in sorted(has ^ want):
            yield path, 1, f"{name} is there and should not be, or the other way round"
