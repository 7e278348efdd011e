"""Compares the making of an index in use with SQLite's CREATE INDEX and PostgreSQL's.

    python3 making.py PREFIX [ROWS ..]

A table is loaded, and then the index of one column is made: once where its values ascend with the keys, and once where they are in any
order. Sandpipercot, whose library is under PREFIX, and SQLite's `:memory:` are called by bench/c/making.c, a new process each time.
PostgreSQL is a server of this script's own (see compare.py) with an unlogged table, which nothing vacuums; an index is made and dropped
once before. The three take turns. Shown are medians of five, in milliseconds of the processor. PostgreSQL makes the index in its session's
process alone; then the time is shown that passes where two others help, as by its settings. It needs libsqlite3-dev.
"""

import os
import random
import re
import statistics
import subprocess
import sys
import tempfile

from compare import SERVER, Server

TURNS = 5
SIZES = [10_000, 100_000, 1_000_000]
COLUMNS = "key bigint PRIMARY KEY, c0 bigint, c1 bigint, c2 bigint, c3 bigint, body bytea"
STORES = ["sandpipercot", "sqlite"]
ALONE = "PostgreSQL alone"
HELPED = "helped, time that passes"


def build(prefix, folder):
    """The program in C over the library under the prefix."""
    here = os.path.dirname(os.path.abspath(__file__))
    program = os.path.join(folder, "making")
    flags = ["-std=c11", "-D_GNU_SOURCE", "-O2", f"-I{prefix}/include", f"{here}/c/making.c", f"{prefix}/lib/libsandpipercot.a"]
    subprocess.run([os.environ.get("CC", "cc"), *flags, "-lsqlite3", "-o", program], check=True)
    return program


def of_program(program, store, order, rows):
    said = subprocess.run([program, store, order, str(rows)], stdout=subprocess.PIPE, check=True)
    return float(said.stdout)


class Table:
    """A table of the server."""

    def __init__(self, server, order, rows):
        self.server = server
        values = list(range(rows))
        if order == "random":
            random.Random(rows).shuffle(values)
        lines = "".join(f"{key}\t{value}\t0\t0\t0\t0123456789abcdef\n" for key, value in enumerate(values))
        self.said(
            "DROP TABLE IF EXISTS heap;\n"
            f"CREATE UNLOGGED TABLE heap({COLUMNS}) WITH (autovacuum_enabled = off);\nCOPY heap FROM stdin;\n{lines}\\.\n"
        )
        self.make("")

    def said(self, sql):
        """What psql writes."""
        command = ["psql", "-h", self.server.folder, "-U", "bench", "-d", "postgres", "-q", "-v", "ON_ERROR_STOP=1"]
        both = {"stdout": subprocess.PIPE, "stderr": subprocess.STDOUT}
        return subprocess.run(command, input=sql, text=True, check=True, **both).stdout

    def make(self, before):
        """Makes the index and drops it, and gives what was written meanwhile."""
        return self.said(f"{before}\nCREATE INDEX by_c0 ON heap(c0);\n\\timing off\nRESET ALL;\nDROP INDEX by_c0;\n")

    def alone(self):
        """The processor seconds of the session's process, without others beside it."""
        said = self.make("SET max_parallel_maintenance_workers = 0;\nSET client_min_messages = log;\nSET log_statement_stats = on;")
        user, system = re.search(r"([\d.]+) s user, ([\d.]+) s system, [\d.]+ s elapsed", said).groups()
        return float(user) + float(system)

    def passed(self):
        """The seconds that pass."""
        return float(re.search(r"Time: ([\d.]+) ms", self.make("\\timing on")).group(1)) / 1000


def measure(program, server, order, rows):
    """The median seconds of each."""
    ways = {store: lambda store=store: of_program(program, store, order, rows) for store in STORES}
    if server:
        table = Table(server, order, rows)
        ways[ALONE] = table.alone
        ways[HELPED] = table.passed
    turns = [{name: way() for name, way in ways.items()} for _ in range(TURNS)]
    return {name: statistics.median(turn[name] for turn in turns) for name in ways}


def line(order, rows, seconds, fewest):
    ours = seconds["sandpipercot"]
    shown = [f"{seconds[name] * 1000:,.1f}" if name in seconds else "" for name in [*STORES, ALONE, HELPED]]
    ratios = [f"{seconds[name] / ours:.2f}" if name in seconds else "" for name in ["sqlite", ALONE]]
    return f"| {order} | {rows:,} | {' | '.join(shown + ratios)} | {ours / rows / fewest:.1f} |"


def main():
    sizes = [int(word) for word in sys.argv[2:]] or SIZES
    with tempfile.TemporaryDirectory() as folder:
        os.chmod(folder, 0o755)
        os.mkdir(os.path.join(folder, "server"))
        program = build(os.path.abspath(sys.argv[1]), folder)
        server = Server(os.path.join(folder, "server")) if os.path.exists(SERVER) else None
        try:
            print(f"| values | rows | Sandpipercot | SQLite | {ALONE} | {HELPED} | to SQLite | to PostgreSQL | a row's cost |")
            print("|---|---:|---:|---:|---:|---:|---:|---:|---:|")
            for order in ["ascending", "random"]:
                fewest = None
                for rows in sizes:
                    seconds = measure(program, server, order, rows)
                    fewest = fewest or seconds["sandpipercot"] / rows
                    print(line(order, rows, seconds, fewest), flush=True)
        finally:
            if server:
                server.stop()


if __name__ == "__main__":
    main()
