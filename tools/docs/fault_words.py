"""Words of faults: what each prints, in the code and in the documents. tools/check_docs.py calls it.

The table of tests/fault_words.md has the words of the library's faults. That of docs/script.md, "How a script ends", has those of the
program, with its exit statuses. With them are compared the `#[error(..)]` of each variant, which `thiserror` prints, and the statuses that
`ShellFault` answers.
"""
import glob
import re

LIBRARY, PROGRAM = "tests/fault_words.md", "docs/script.md"
OF_PROGRAM = "ShellFault"


def text_of(path):
    with open(path, encoding="utf-8") as file:
        return file.read()


def in_code():
    """The words of each variant of each fault: N for a number, and NAME for a fault within it."""
    found = {}
    for path in sorted(glob.glob("crates/*/src/**/*.rt", recursive=True)):
        for fault, variants in re.findall(r"^pub enum (\w+) \{\n(.*?)^\}", text_of(path), re.M | re.S):
            for words, variant in re.findall(r'^    #\[error\("([^"]*)".*\)\]\n    (\w+)', variants, re.M):
                found[fault, variant] = words.replace("{0}", "N").replace("{}", "NAME")
    return found


def attributes():
    """How many attributes have words."""
    return sum(text_of(path).count("#[error(") for path in glob.glob("crates/*/src/**/*.rt", recursive=True))


def in_library_table():
    return {(fault, variant): words for fault, variant, words in re.findall(r"^\| `(\w+)` \| `(\w+)` \| (.*) \|$", text_of(LIBRARY), re.M)}


def statuses():
    """The exit status of each variant of the program's fault."""
    arms = re.findall(rf"^ +({OF_PROGRAM}::.*) => (\d),$", text_of("crates/script/src/fault.rt"), re.M)
    return {variant: int(status) for variants, status in arms for variant in re.findall(rf"{OF_PROGRAM}::(\w+)", variants)}


def in_program_table():
    """The words that the program ends with, each with its status."""
    section = text_of(PROGRAM).partition("## How a script ends")[2].partition("\n## ")[0]
    return {(words, int(status)) for status, words in re.findall(r"^\| (\d) \| `([^`]*)`", section, re.M)}


def wrong():
    """Each fault whose words or status are not the table's: the page, the line, and what to say."""
    code, table, status = in_code(), in_library_table(), statuses()
    if len(code) != attributes():
        yield LIBRARY, 1, f"{attributes()} variants have words in the code, of which tools/docs/fault_words.py reads {len(code)}"
    library = {fault: words for fault, words in code.items() if fault[0] != OF_PROGRAM}
    for fault in sorted(library.keys() | table.keys()):
        if library.get(fault) != table.get(fault):
            yield LIBRARY, 1, f"{'::'.join(fault)} has the words {library.get(fault)!r}, and in the table {table.get(fault)!r}"
    program = {(words, status.get(variant)) for (fault, variant), words in code.items() if fault == OF_PROGRAM}
    for words, number in sorted(program ^ in_program_table(), key=str):
        yield PROGRAM, 1, f"the words {words!r} with the status {number} are in the code or in the table, and not in both"
