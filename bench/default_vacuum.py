"""How long a vacuum takes with the default settings, after every second row was deleted:

    python3 default_vacuum.py PREFIX [ROWS [DEAD_LIMIT]]

From C, Python and `heapsh run`, over what tools/quick.sh PREFIX or a release has installed: the processor seconds of the vacuum alone. A
script has no default: of it a `dead_limit` of 4096 is meant.
"""
import os
import resource
import subprocess
import sys
import tempfile

from vacuum import timed, write_script

HERE = os.path.dirname(os.path.abspath(__file__))
LOADED = 1000


def in_c(prefix, folder, rows, limit):
    program = os.path.join(folder, "half_vacuum")
    words = ["-O2", "-Wall", f"-I{prefix}/include", f"{HERE}/c/half_vacuum.c", f"{prefix}/lib/libsandpipercot.a"]
    subprocess.run([os.environ.get("CC", "cc"), *words, "-o", program], check=True)
    command = [program, str(rows)] + ([str(limit)] if limit else [])
    return float(subprocess.run(command, check=True, capture_output=True, text=True).stdout)


def seconds():
    return sum(resource.getrusage(resource.RUSAGE_SELF)[:2])


def in_python(prefix, folder, rows, limit):
    if f"{prefix}/lib/python" not in sys.path:
        sys.path.insert(0, f"{prefix}/lib/python")
    from sandpipercot import Row, Table

    with Table(**({"dead_limit": limit} if limit else {})) as table:
        for first in range(0, rows, LOADED):
            with table.begin() as session:
                session.insert_many(Row(key) for key in range(first, min(first + LOADED, rows)))
        for first in range(0, rows, LOADED):
            with table.begin() as session:
                for key in range(first, min(first + LOADED, rows), 2):
                    session.delete(key)
        before = seconds()
        table.vacuum()
        return seconds() - before


def in_a_script(prefix, folder, rows, limit):
    path, spent = os.path.join(folder, "script"), []
    for ending in ("", "vacuum begin normal\nvacuum finish\n"):
        write_script(path, rows, range(rows), ending, limit or 4096)
        spent.append(timed([f"{prefix}/bin/heapsh", "run"], path))
    return spent[1] - spent[0]


def main():
    prefix, rows = os.path.abspath(sys.argv[1]), int(sys.argv[2]) if len(sys.argv) > 2 else 1_000_000
    limit = int(sys.argv[3]) if len(sys.argv) > 3 else None
    print("| from | rows | `dead_limit` | seconds |\n|---|---:|---:|---:|")
    with tempfile.TemporaryDirectory() as folder:
        for name, way in (("C", in_c), ("Python", in_python), ("`heapsh run`", in_a_script)):
            print(f"| {name} | {rows:,} | {limit or 4096} | {way(prefix, folder, rows, limit):.2f} |", flush=True)


if __name__ == "__main__":
    main()
