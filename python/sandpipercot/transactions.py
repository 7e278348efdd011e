"""Transactions that are done again where another was first."""
from __future__ import annotations

import time
from typing import Callable, TypeVar

from .sessions import Session
from .statuses import Busy, Conflict, Deadlock, RolledBack
from .table import Table

Answer = TypeVar("Answer")


def run(
    table: Table,
    function: Callable[[Session], Answer],
    *,
    read_committed: bool = False,
    tries: int = 10,
    wait: float = 0.001,
    sleep: Callable[[float], object] = time.sleep,
) -> Answer:
    """Begins a session, hands it to the function, commits, and answers what the function answered.

    After Conflict, Deadlock, Busy or RolledBack the session is aborted, and all is done again: up to `tries` times in all, so the function may
    be called that often. The wait between begins with so many seconds, and doubles. At the end the last of them is raised; what else
    is raised comes through at once. `sleep` does the waiting: hand over what lets other sessions of the thread go on meanwhile."""
    if tries < 1:
        raise ValueError("a transaction is tried once at least")
    for left in reversed(range(tries)):
        try:
            with table.begin(read_committed=read_committed) as session:
                return function(session)
        except (Busy, Conflict, Deadlock, RolledBack):
            if not left:
                raise
        sleep(wait)
        wait *= 2
    raise AssertionError("the last try answers or raises")
