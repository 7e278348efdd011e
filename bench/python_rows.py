#!/usr/bin/env python3
"""Times the Python module beside Python's own sqlite3, in memory and in one run: bench/python_rows.py PREFIX [ROWS]

PREFIX is where tools/build_c.sh has installed the library. Each operation is done on ROWS rows (100,000) with four columns and a body of 16
bytes, three times in turn for both; the best processor time counts. It prints rows a second, and how many times as fast the module is.
"""
import sqlite3
import sys
import time
from typing import Callable, Dict, List

sys.path.insert(0, f"{sys.argv[1]}/lib/python")
from sandpipercot import Row, Session, Table  # noqa: E402

COUNT = int(sys.argv[2]) if len(sys.argv) > 2 else 100_000
ROWS = [Row(key, (key, -key, 7, 0), b"%016d" % key) for key in range(COUNT)]
NEXT = [Row(key, (key, -key, 8, 0), b"%016d" % (key + 1)) for key in range(COUNT)]
FLAT = [(row.key, *row.cols, row.body) for row in ROWS]
FLAT_NEXT = [(*row.cols, row.body, row.key) for row in NEXT]
TIMES = 3


def ours() -> Dict[str, Callable[[], object]]:
    """Each operation by the module, on a table of its own."""
    table = Table()
    session: Session = table.begin()
    return {
        "insert, many by a call": lambda: session.insert_many(ROWS),
        "get, one by a call": lambda: [session.get(key) for key in range(COUNT)],
        "scan by key": lambda: [row.key for row in session.by_key()],
        "scan of the heap": lambda: [row.key for row in session.rows()],
        "update, many by a call": lambda: session.update_many(NEXT),
        "commit": session.commit,
    }


def theirs() -> Dict[str, Callable[[], object]]:
    """The same by sqlite3."""
    base = sqlite3.connect(":memory:", isolation_level=None)
    base.execute("create table t (key integer primary key, a integer, b integer, c integer, d integer, body blob)")
    base.execute("begin")
    update = "update t set a = ?, b = ?, c = ?, d = ?, body = ? where key = ?"
    return {
        "insert, many by a call": lambda: base.executemany("insert into t values (?, ?, ?, ?, ?, ?)", FLAT),
        "get, one by a call": lambda: [base.execute("select * from t where key = ?", (key,)).fetchone() for key in range(COUNT)],
        "scan by key": lambda: [row[0] for row in base.execute("select * from t order by key")],
        "scan of the heap": lambda: [row[0] for row in base.execute("select * from t")],
        "update, many by a call": lambda: base.executemany(update, FLAT_NEXT),
        "commit": lambda: base.execute("commit"),
    }


def seconds(work: Callable[[], object]) -> float:
    before = time.process_time()
    work()
    return time.process_time() - before


def main() -> None:
    taken: List[Dict[str, List[float]]] = [{}, {}]
    for _ in range(TIMES):
        for place, make in zip(taken, (ours, theirs)):
            for name, work in make().items():
                place.setdefault(name, []).append(seconds(work))
    print("| rows a second | sandpipercot | sqlite3 | times as fast |\n|---|---:|---:|---:|")
    for name in taken[0]:
        if name != "commit":
            mine, other = (COUNT / min(it[name]) for it in taken)
            print(f"| {name} | {mine:,.0f} | {other:,.0f} | {mine / other:.2f} |")


if __name__ == "__main__":
    main()
