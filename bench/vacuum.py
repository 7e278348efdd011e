"""Compares a vacuum of `heapsh run` with PostgreSQL's.

    python3 vacuum.py HEAPSH [ROWS]

A table is loaded, half of its rows are deleted, every second key, and then it is vacuumed: once loaded in ascending order of keys,
and once in a random one. Of heapsh it is the processor time of a script with the vacuum, less that of the same script without; the
store holds 4096 dead slots. PostgreSQL is a server of this script's own (see compare.py), where the time of the statement passes;
its table is unlogged, and nothing but this script vacuums it. Each is the best of five.
"""

import os
import random
import sys
import tempfile

from compare import SERVER, Server, timed
from workloads import COLUMNS, in_transactions, insert

RUNS = 5
ROWS = 1_000_000
LOADED = 1000


def delete(session, key):
    return f"delete {session} {key}\n", f"DELETE FROM heap WHERE key={key};\n"


def orders(rows):
    shuffled = list(range(rows))
    random.Random(rows).shuffle(shuffled)
    return {"ascending": range(rows), "random": shuffled}


def write_script(path, rows, keys, ending, dead_limit=4096):
    with open(path, "w") as script:
        script.write(f"heap 65536 2144483648 0 3 {dead_limit} 0000\n")
        for lines, _ in in_transactions((insert(0, key) for key in keys), LOADED):
            script.write(lines)
        for lines, _ in in_transactions((delete(0, key) for key in range(0, rows, 2)), LOADED):
            script.write(lines)
        script.write(ending)


def of_heapsh(heapsh, folder, rows, keys):
    """The seconds of a vacuum of heapsh."""
    loading, whole = os.path.join(folder, "loading"), os.path.join(folder, "whole")
    write_script(loading, rows, keys, "")
    write_script(whole, rows, keys, "vacuum begin normal\nvacuum finish\n")
    turns = [(timed([heapsh, "run"], loading), timed([heapsh, "run"], whole)) for _ in range(RUNS)]
    return min(turn[1] for turn in turns) - min(turn[0] for turn in turns)


def of_server(server, folder, rows, keys):
    """The seconds of a vacuum of PostgreSQL."""
    loading, vacuum = os.path.join(folder, "loading.sql"), os.path.join(folder, "vacuum.sql")
    with open(vacuum, "w") as sql:
        sql.write("VACUUM heap;\n")
    with open(loading, "w") as sql:
        sql.write(f"DROP TABLE IF EXISTS heap;\nCREATE UNLOGGED TABLE heap({COLUMNS}) WITH (autovacuum_enabled = off);\n")
        sql.write("COPY heap FROM stdin;\n")
        sql.writelines(f"{key}\t{key}\t{-key}\t0\t0\t\n" for key in keys)
        sql.write("\\.\nDELETE FROM heap WHERE key % 2 = 0;\n")
    seconds = []
    for _ in range(RUNS):
        server.run(loading)
        seconds.append(server.run(vacuum))
    return min(seconds)


def main():
    heapsh = os.path.abspath(sys.argv[1])
    rows = int(sys.argv[2]) if len(sys.argv) > 2 else ROWS
    with tempfile.TemporaryDirectory() as folder:
        os.chmod(folder, 0o755)
        os.mkdir(os.path.join(folder, "server"))
        server = Server(os.path.join(folder, "server")) if os.path.exists(SERVER) else None
        try:
            print("| keys loaded | rows | heapsh, seconds | PostgreSQL, seconds | times as fast |")
            print("|---|---:|---:|---:|---:|")
            for name, keys in orders(rows).items():
                ours = of_heapsh(heapsh, folder, rows, keys)
                theirs = of_server(server, folder, rows, keys) if server else None
                shown = f"{theirs:.3f} | {theirs / ours:.1f}" if server else " | "
                print(f"| {name} | {rows:,} | {ours:.3f} | {shown} |", flush=True)
        finally:
            if server:
                server.stop()


if __name__ == "__main__":
    main()
