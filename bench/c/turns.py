#!/usr/bin/env python3
"""Times rows in Sandpipercot, LMDB and SQLite, each workload in a process of its own: bench/c/turns.py PREFIX [--rounds N] [--rows N ..]

PREFIX is where tools/build_c.sh or tools/unproved_c.py installed the library. The stores take turns, N times, and the table has medians:
nanoseconds an operation, and the ratio to Sandpipercot. Keys are loaded in order or at random, dense or spread over 64 bits; bodies have
0, 16 or 200 bytes. Rewrite, which updates each row ten times, runs where --workloads names it. With --huge the memory of all programs is
asked for in huge pages (GLIBC_TUNABLES); LMDB's map does not change by it.
It needs liblmdb-dev and libsqlite3-dev.
"""
import argparse
import os
import pathlib
import statistics
import subprocess
import tempfile

HERE = pathlib.Path(__file__).resolve().parent
STORES = {"sandpipercot": [], "lmdb": ["-llmdb"], "sqlite": ["-lsqlite3"]}
WORKLOADS = ["insert", "get", "scan", "update", "delete"]
DENSE, SPARSE = "1", "11400714819323198485"
# order of the keys, what each is a multiple of, and the bytes of a body
CASES = [("ascending", DENSE, 16), ("random", DENSE, 16), ("ascending", SPARSE, 16), ("ascending", DENSE, 0), ("ascending", DENSE, 200)]


def build(work, prefix, store, body):
    program = f"{work}/{store}_{body}"
    flags = ["-std=c11", "-D_GNU_SOURCE", "-O2", "-Wall", "-Wextra", f"-DSTORE={store}_store", f"-DBODY_BYTES={body}", f"-I{prefix}/include"]
    library = [f"{prefix}/lib/libsandpipercot.a"] if store == "sandpipercot" else STORES[store]
    subprocess.run([os.environ.get("CC", "cc"), *flags, HERE / "turn.c", HERE / f"{store}_store.c", *library, "-o", program], check=True)
    return program


def main():
    parser = argparse.ArgumentParser(description=__doc__, formatter_class=argparse.RawDescriptionHelpFormatter)
    parser.add_argument("prefix")
    parser.add_argument("--rounds", type=int, default=5)
    parser.add_argument("--rows", type=int, nargs="+", default=[10000, 100000, 1000000])
    parser.add_argument("--huge", action="store_true")
    parser.add_argument("--cases", type=int, default=len(CASES), help="how many of the cases, the first ones")
    parser.add_argument("--workloads", nargs="+", default=WORKLOADS)
    asked = parser.parse_args()
    environment = dict(os.environ, GLIBC_TUNABLES="glibc.malloc.hugetlb=1") if asked.huge else dict(os.environ)
    print("| workload | rows | keys | body |", " | ".join(STORES), "| to LMDB | to SQLite |\n|---|---:|---|---:|---:|---:|---:|---:|---:|")
    with tempfile.TemporaryDirectory() as work:
        for order, step, body in CASES[: asked.cases]:
            programs = {store: build(work, asked.prefix, store, body) for store in STORES}
            for rows in asked.rows:
                for workload in asked.workloads:
                    taken = {store: [] for store in STORES}
                    for _ in range(asked.rounds):
                        for store, program in programs.items():
                            words = [program, workload, str(rows), order, step]
                            done = subprocess.run(words, check=True, capture_output=True, text=True, env=environment)
                            taken[store].append(float(done.stdout))
                    middle = [statistics.median(taken[store]) for store in STORES]
                    keys = f"{order}, {'dense' if step == DENSE else 'sparse'}"
                    figures = " | ".join(f"{it:,.0f}" for it in middle)
                    print(f"| {workload} | {rows:,} | {keys} | {body} | {figures} | {middle[1] / middle[0]:.2f} | {middle[2] / middle[0]:.2f} |", flush=True)


if __name__ == "__main__":
    main()
