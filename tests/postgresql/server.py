"""A server of PostgreSQL for tests, in a folder of its own and without a port, and psql as its client.

The server runs as the user postgres where it is called by root.
"""
import contextlib
import os
import queue
import shutil
import subprocess
import tempfile
import threading
import time
from typing import Iterator, List, Optional


class Client:
    """One psql: what it is told, and the lines that it says within a while."""

    def __init__(self, command: List[str]) -> None:
        self.psql = subprocess.Popen(command, stdin=subprocess.PIPE, stdout=subprocess.PIPE, stderr=subprocess.STDOUT, text=True, bufsize=1)
        self.lines: "queue.Queue[str]" = queue.Queue()
        threading.Thread(target=lambda: [self.lines.put(line.rstrip("\n")) for line in self.psql.stdout], daemon=True).start()

    def tell(self, sql: str) -> None:
        self.psql.stdin.write(f"{sql};\n\\echo end\n")
        self.psql.stdin.flush()

    def lines_within(self, seconds: float) -> Optional[List[str]]:
        """The lines of an answer; nothing where it has not come in time."""
        said: List[str] = []
        until = time.time() + seconds
        while time.time() < until:
            try:
                line = self.lines.get(timeout=0.05)
            except queue.Empty:
                continue
            if line == "end":
                return said
            said.append(line)
        return None

    def end(self) -> None:
        self.psql.kill()
        self.psql.wait()


@contextlib.contextmanager
def server(programs: str, *more: str) -> Iterator[List[str]]:
    """A server that runs meanwhile: the words that begin a psql of it. `programs` is the folder of PostgreSQL's own."""
    as_postgres = ["runuser", "-u", "postgres", "--"] if os.getuid() == 0 else []
    control, folder = os.path.join(programs, "pg_ctl"), tempfile.mkdtemp()
    try:
        if as_postgres:
            shutil.chown(folder, "postgres")
        subprocess.run([*as_postgres, control, "-D", f"{folder}/data", "-o", "-A trust -N", "init"], check=True, capture_output=True, cwd=folder)
        settings = f"-k {folder} -c listen_addresses=''"
        start = [*as_postgres, control, "-D", f"{folder}/data", "-l", f"{folder}/log", "-o", settings, "-w", "start"]
        subprocess.run(start, check=True, stdout=subprocess.DEVNULL, cwd=folder)
        user = "postgres" if as_postgres else os.environ["USER"]
        yield ["psql", "-XAt", *more, "-v", "VERBOSITY=sqlstate", "-h", folder, "-U", user, "-d", "postgres"]
    finally:
        stop = [*as_postgres, control, "-D", f"{folder}/data", "-m", "immediate", "stop"]
        subprocess.run(stop, check=False, capture_output=True, cwd="/")
        shutil.rmtree(folder, ignore_errors=True)
