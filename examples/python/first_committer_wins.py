"""Two sessions want to write one key, and only the one that commits first gets its way. Then a scan of what is left.

PYTHONPATH=PREFIX/lib/python python3 first_committer_wins.py
"""
from sandpipercot import Busy, Conflict, Failed, RolledBack, Row, Table

with Table() as table:
    first, second = table.begin(0), table.begin(1)
    first.insert(Row(1, (10, 0, 0, 0)))
    print("session 0 inserts key 1: done")

    # an open session has written the key: session 1 stays usable, and writes another
    try:
        second.insert(Row(1, (20, 0, 0, 0)))
    except Busy as busy:
        print(f"session {second.number} inserts key 1: busy")
        assert busy.session == first.number
    second.insert(Row(2, (20, 0, 0, 0)))
    print("session 1 inserts key 2: done")
    first.commit()
    print("session 0 commits: committed")

    # key 1 was committed after session 1 had begun: it has failed, and its commit takes back what it wrote
    try:
        second.insert(Row(1, (20, 0, 0, 0)))
    except Conflict:
        print("session 1 inserts key 1: conflict")
    try:
        second.get(2)
    except Failed:
        print("session 1 reads key 2: failed")
    try:
        second.commit()
    except RolledBack:
        print("session 1 commits: rolled back")

    with table.begin() as session:
        for row in session.rows():
            print(f"row {row.key}: {row.cols[0]}")
