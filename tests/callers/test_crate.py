"""Tries the crate for Rust: test_crate.py PREFIX. With cargo as a dependency by its path, without one by rustc.

What the crate has the compiler refuse is compiled too, and has to be refused, each for its reason."""
import pathlib
import re
import shutil
import subprocess
import sys
import tempfile
from typing import List

HERE = pathlib.Path(__file__).resolve().parent
KEPT = HERE.parents[1] / "docs/horizon.svg"  # the picture with which that of the crate is compared
MANIFEST = '[package]\nname = "tries"\nversion = "0.0.0"\nedition = "2021"\n\n[dependencies]\nsandpipercot = {{ path = "{}" }}\n'
SCAN = "let mut session = table.begin()?; let rows = session.rows()?;"
WRONG = [
    ("a session outlives its table", "E0505", "let session = table.begin()?; drop(table); session.commit()"),
    ("a table is dropped with a cursor", "E0505", f"{SCAN} drop(table); drop(rows); Ok(())"),
    ("a session is used after its end", "E0382", "let session = table.begin()?; session.commit()?; session.get(1).map(drop)"),
    ("a session is ended with a cursor", "E0505", f"{SCAN} session.abort()?; drop(rows); Ok(())"),
    ("a session writes with a cursor", "E0502", f"{SCAN} session.delete(1)?; drop(rows); Ok(())"),
    ("a table goes to another thread", "E0277", "std::thread::spawn(move || drop(table)); Ok(())"),
    ("a table is read on another thread", "E0277", "std::thread::scope(|it| { it.spawn(|| table.state()); }); Ok(())"),
    ("a session is copied", "E0599", "let session = table.begin()?; session.clone().commit()"),
    ("a ticket is read twice at a time", "E0596", "let ticket = table.begin()?.take_page(0)?; ticket.rows().map(drop)"),
]
RIGHT = "let mut session = table.begin()?; session.delete(1)?; session.commit()"
USES = "#![allow(unused)]\nuse sandpipercot::{Refused, Settings, Table};\n"
PROGRAM = USES.replace("{", "{{").replace("}", "}}") + "fn main() -> Result<(), Refused> {{ let table = Table::open(&Settings::default())?; {} }}\n"


def compiled(folder: pathlib.Path, words: List[str], lines: str) -> List[str]:
    """The numbers of the errors in a program with these lines."""
    (folder / "lines.rs").write_text(PROGRAM.format(lines))
    words = [*words, str(folder / "lines.rs"), "--emit", "metadata", "-o", str(folder / "lines")]
    said = subprocess.run(words, capture_output=True, text=True, check=False)
    return sorted(set(re.findall(r"^error\[(E\d+)\]", said.stderr, re.M))) or (["?"] if said.returncode else [])


def main(prefix: str) -> None:
    crate = pathlib.Path(prefix).resolve() / "lib/rust/sandpipercot"
    with tempfile.TemporaryDirectory() as name:
        folder = pathlib.Path(name)
        rustc, library = ["rustc", "--edition", "2021", "-D", "warnings"], f"{prefix}/lib"
        subprocess.run([*rustc, "-O", "--crate-type", "lib", "--crate-name", "sandpipercot", "--out-dir", folder, "-L", library,
                        "-l", "static=sandpipercot", crate / "src/lib.rs"], check=True)
        rustc += ["--extern", f"sandpipercot={folder}/libsandpipercot.rlib", "-L", library]
        subprocess.run([*rustc, "-O", HERE / "crate.rs", "-o", folder / "tries"], check=True)
        subprocess.run([folder / "tries", KEPT], check=True)
        assert compiled(folder, rustc, RIGHT) == [], "the program without a fault"
        for fault, number, lines in WRONG:
            found = compiled(folder, rustc, lines)
            assert found == [number], f"{fault}: {number} is to be said, and {found} was"
        if shutil.which("cargo"):
            (folder / "by_path/src").mkdir(parents=True)
            (folder / "by_path/Cargo.toml").write_text(MANIFEST.format(crate))
            shutil.copy(HERE / "crate.rs", folder / "by_path/src/main.rs")
            subprocess.run(["cargo", "run", "--quiet", "--offline", "--", KEPT], cwd=folder / "by_path", check=True)
    print(f"the crate does what it says, and {len(WRONG)} wrong programs are refused")


if __name__ == "__main__":
    main(sys.argv[1])
