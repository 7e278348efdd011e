"""Compares `heapsh run` with SQLite and PostgreSQL on the same operations.

    python3 compare.py HEAPSH [ROWS..]

For each workload and each number of rows: operations a second, and what an operation of heapsh costs beside one on the fewest rows.
SQLite is `sqlite3 :memory:`. For both shells the processor time of a run with the operations is taken, less that of one that only
loads the table, so that other work on the machine counts little. PostgreSQL, where its server is installed, is a server of this
script's own with an unlogged table and fsync off, asked by psql over a local socket, one statement after another; there it is the
time that passes while the operations are done.
"""

import os
import pwd
import resource
import shutil
import subprocess
import sys
import tempfile
import time

from workloads import WORKLOADS, write

ENGINES = ["heapsh", "sqlite3", "PostgreSQL"]
# of a shell at least as many as there are rows, since else they drown in the loading
OPERATIONS = {"shell": 500_000, "server": 10_000}
SIZES = [1_000, 10_000, 100_000, 1_000_000]
RUNS = 3
SERVER = "/usr/lib/postgresql/15/bin"


class Server:
    """A PostgreSQL server on a socket in a folder of its own, run by nobody's account where this is root."""

    def __init__(self, folder):
        self.folder = folder
        self.data = os.path.join(folder, "data")
        self.user = pwd.getpwnam("postgres").pw_uid if os.getuid() == 0 else None
        os.chmod(folder, 0o777)
        self.call(["initdb", "-D", self.data, "-U", "bench", "-A", "trust"])
        options = f"-k {folder} -c listen_addresses= -c fsync=off -c synchronous_commit=off -c shared_buffers=4GB"
        self.call(["pg_ctl", "-D", self.data, "-o", options, "-w", "-l", os.path.join(folder, "log"), "start"])

    def call(self, words):
        command = [os.path.join(SERVER, words[0])] + words[1:]
        subprocess.run(command, check=True, stdout=subprocess.DEVNULL, user=self.user, cwd=self.folder)

    def run(self, sql):
        """The seconds that pass while the server does this."""
        start = time.perf_counter()
        command = ["psql", "-h", self.folder, "-U", "bench", "-d", "postgres", "-q", "-A", "-t", "-f", sql]
        subprocess.run(command, stdout=subprocess.DEVNULL, check=True)
        return time.perf_counter() - start

    def stop(self):
        self.call(["pg_ctl", "-D", self.data, "-m", "immediate", "stop"])


def timed(command, source):
    """The processor seconds of a command that reads this file."""
    before = resource.getrusage(resource.RUSAGE_CHILDREN)
    with open(source, "rb") as given:
        subprocess.run(command, stdin=given, stdout=subprocess.DEVNULL, check=True)
    after = resource.getrusage(resource.RUSAGE_CHILDREN)
    return after.ru_utime + after.ru_stime - before.ru_utime - before.ru_stime


def refusals(heapsh, script):
    with open(script, "rb") as given:
        answers = subprocess.run([heapsh, "run"], stdin=given, stdout=subprocess.PIPE, check=True).stdout
    return sum(1 for line in answers.splitlines() if line.startswith(b"error ") and not line.endswith(b"NoSuchPage"))


def files(folder, name, rows, count, **how):
    """The operations as a script and as SQL, after those that load the table."""
    script, sql = os.path.join(folder, f"script.{count}"), os.path.join(folder, f"sql.{count}")
    with open(script, "w") as lines, open(sql, "w") as statements:
        write(name, rows, count, lines, statements, **how)
    return script, sql


def shell_rates(shells, folder, name, rows):
    """Operations a second of each shell; with its command stands whether it reads the script (0) or the SQL (1). The shells take turns, and
    each loads the table, and loads it and works: what slows the machine for a while then slows all of them."""
    count = max(OPERATIONS["shell"], rows) // (10 if name.startswith("index scans") else 1)
    loading = files(folder, name, rows, 0)
    working = files(folder, name, rows, count)
    if refusals(shells["heapsh"][0][0], working[0]) > 0:
        sys.exit(f"{name}: heapsh refused a line")
    turns = [
        {shell: (timed(command, loading[which]), timed(command, working[which])) for shell, (command, which) in shells.items()}
        for _ in range(RUNS)
    ]
    for path in loading + working:
        os.remove(path)
    return {shell: count / (min(turn[shell][1] for turn in turns) - min(turn[shell][0] for turn in turns)) for shell in shells}


def server_rate(server, folder, name, rows):
    """Operations a second of the server."""
    count = OPERATIONS["server"]
    server.run(files(folder, name, rows, 0, kind="UNLOGGED TABLE")[1])
    return count / server.run(files(folder, name, rows, count, loads=False)[1])


def measure(heapsh, server, folder, name, rows):
    """Operations a second of each engine that is there."""
    shells = {"heapsh": ([heapsh, "run"], 0)}
    if shutil.which("sqlite3"):
        shells["sqlite3"] = (["sqlite3", ":memory:"], 1)
    rates = shell_rates(shells, folder, name, rows)
    if server:
        rates["PostgreSQL"] = server_rate(server, folder, name, rows)
    return rates


def line(name, rows, rates, fewest):
    shown = [f"{rates[engine]:,.0f}" if engine in rates else "" for engine in ENGINES]
    ratio = f"{rates['heapsh'] / rates['sqlite3']:.1f}" if "sqlite3" in rates else ""
    return f"| {name} | {rows:,} | {' | '.join(shown)} | {ratio} | {fewest / rates['heapsh']:.1f} |"


def main():
    heapsh = os.path.abspath(sys.argv[1])
    sizes = [int(word) for word in sys.argv[2:]] or SIZES
    with tempfile.TemporaryDirectory() as folder:
        server = Server(os.path.join(folder, "server")) if make(folder) and os.path.exists(SERVER) else None
        try:
            print("| workload | rows | heapsh | sqlite3 | PostgreSQL | heapsh to sqlite3 | cost to that on the fewest rows |")
            print("|---|---:|---:|---:|---:|---:|---:|")
            for name in WORKLOADS:
                fewest = None
                for rows in sizes:
                    rates = measure(heapsh, server, folder, name, rows)
                    fewest = fewest or rates["heapsh"]
                    print(line(name, rows, rates, fewest), flush=True)
        finally:
            if server:
                server.stop()


def make(folder):
    os.chmod(folder, 0o755)
    os.mkdir(os.path.join(folder, "server"))
    return True


if __name__ == "__main__":
    main()
