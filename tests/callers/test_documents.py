"""Runs the code and the commands that the documents print, and looks for what they say that it prints: test_documents.py PREFIX.

The pieces of README.md and docs/recipes.md run by themselves. Those of docs/callers.md are put into the files that it names, and its commands
are run as they are printed, one page after the other, with nothing of PREFIX on a path but what the commands put there. What stands in a page
as code that could be run has to be found by the patterns here: else a page could go untried."""
import os
import pathlib
import re
import shutil
import subprocess
import sys
import tempfile
from typing import Dict

ROOT = pathlib.Path(__file__).resolve().parent.parent.parent
# a fenced block in C or Python, and the answer that the text after it names
BLOCK = re.compile(r"```(c|python)\n(.*?)```\n.*?prints `([^`]*)`", re.S)
# one with the file that it is in, with its answer, and with the commands that lead there
PRINTED = re.compile(r"In `([\w.]+)`:\n\n```\w+\n(.*?)```\n\nprints `([^`]*)`:\n\n```sh\n(.*?)```", re.S)
# each block in a language that could be run, and each file that a page has its reader make
ANY_BLOCK = re.compile(r"^```(c|cpp|rust|python)\n(.*?)^```$", re.M | re.S)
ANY_FILE = re.compile(r"^In `([\w.]+)`:$", re.M)
# what a page of commands needs beside a C compiler and Python
NEEDED = ("pkg-config", "c++", "cargo")
PATHS = ("LD_LIBRARY_PATH", "PYTHONPATH", "PKG_CONFIG_PATH", "SANDPIPERCOT", "LIBRARY_PATH", "CPATH")


def said(language: str, code: str, prefix: str, folder: pathlib.Path) -> str:
    """What the code prints."""
    if language == "python":
        command = [sys.executable, "-c", code]
    else:
        (folder / "printed.c").write_text(code)
        command = [folder / "printed"]
        link = ["-I", f"{prefix}/include", "-L", f"{prefix}/lib", "-lsandpipercot"]
        subprocess.run([os.environ.get("CC", "cc"), "-Wall", "-Werror", folder / "printed.c", *link, "-o", *command], check=True)
    return subprocess.run(command, check=True, capture_output=True, text=True).stdout.strip()


def bare_environment(prefix: str, folder: pathlib.Path) -> Dict[str, str]:
    """One in which PREFIX is on no path, with a Python that has nothing installed."""
    subprocess.run([sys.executable, "-m", "venv", folder / "venv"], check=True)
    kept = {name: value for name, value in os.environ.items() if name not in PATHS and not name.startswith(("PIP_", "PYTHON"))}
    return {**kept, "PATH": f"{folder}/venv/bin:{kept['PATH']}", "PREFIX": prefix, "PIP_DISABLE_PIP_VERSION_CHECK": "1", "PIP_NO_INDEX": "1"}


def run_pieces(page: str, languages: str, prefix: str, folder: pathlib.Path) -> int:
    """Runs the page's pieces in these languages that use the table."""
    text = (ROOT / page).read_text()
    pieces = [(language, code, answer) for language, code, answer in BLOCK.findall(text) if "sandpipercot" in code]
    there = [code for language, code in ANY_BLOCK.findall(text) if language in languages.split() and "sandpipercot" in code]
    assert there and [code for _, code, _ in pieces] == there, f"{page}: of {len(there)} pieces {len(pieces)} say what they print"
    for language, code, answer in pieces:
        printed = said(language, code, prefix, folder)
        assert printed == answer, f"{page} says {answer!r}, and {printed!r} was printed"
    return len(pieces)


def is_missing(commands: str) -> bool:
    """Whether the commands call what is not here."""
    return any(tool in commands.replace("(", " ").split() and not shutil.which(tool) for tool in NEEDED)


def run_callers(prefix: str, folder: pathlib.Path) -> int:
    """The commands go on from one to the next, as in one shell."""
    environment, count, before = bare_environment(prefix, folder), 0, "set -eu\n"
    text = (ROOT / "docs/callers.md").read_text()
    pages = PRINTED.findall(text)
    assert [file for file, *_ in pages] == ANY_FILE.findall(text), "docs/callers.md: a file has no commands, or no answer"
    assert [code for _, code, *_ in pages] == [code for _, code in ANY_BLOCK.findall(text)], "docs/callers.md: a block is in no file"
    for file, code, answer, commands in pages:
        (folder / file).write_text(code)
        if not is_missing(commands):
            ran = subprocess.run(["bash", "-c", before + commands], cwd=folder, env=environment, capture_output=True, text=True, check=False)
            assert ran.returncode == 0, f"docs/callers.md, {file}: status {ran.returncode}\n{ran.stdout}{ran.stderr}"
            printed = ran.stdout.strip().splitlines()[-1]
            assert printed == answer, f"docs/callers.md says {answer!r}, and {printed!r} was printed"
            count += 1
        before += "".join(line + "\n" for line in commands.splitlines() if line.startswith("export "))
    return count


def main(prefix: str) -> None:
    with tempfile.TemporaryDirectory() as name:
        folder = pathlib.Path(name)
        readme, recipes = (run_pieces(page, "c python", prefix, folder) for page in ("README.md", "docs/recipes.md"))
        commands = run_callers(prefix, folder)
    print(f"{readme} pieces of README.md and {recipes} of docs/recipes.md print what is said, and {commands} pages of docs/callers.md")


if __name__ == "__main__":
    main(sys.argv[1])
