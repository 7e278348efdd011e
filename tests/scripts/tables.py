"""Tables of the ends of what is allowed and what lies beyond: lines, first lines, words of the command line, and pages."""
from typing import Dict, List, NamedTuple, Tuple

# first lines, each of them a script
ALLOWED_HEADINGS = [
    b"heap 1 1 0 3 1 0000\n",
    b"heap 65536 2144483648 1000000000 4294967295 4096 1111\n",
]
BAD_HEADINGS = [
    b"",
    b"\n",
    b"heap 0 1 0 3 1 0000\n",
    b"heap 65537 1 0 3 1 0000\n",
    b"heap 1 0 0 3 1 0000\n",
    b"heap 1 2144483649 0 3 1 0000\n",
    b"heap 1 1 1000000001 3 1 0000\n",
    b"heap 1 1 0 2 1 0000\n",
    b"heap 1 1 0 4294967296 1 0000\n",
    b"heap 1 1 0 3 0 0000\n",
    b"heap 1 1 0 3 4097 0000\n",
    b"heap 1 1 0 3 1 000\n",
    b"heap 1 1 0 3 1 00000\n",
    b"heap 1 1 0 3 1 0020\n",
    b"heap 01 1 0 3 1 0000\n",
    b"heap 1  1 0 3 1 0000\n",
    b"heap 1 1 0 3 1 0000 \n",
    b"heap 1 1 0 3 1 0000\r\n",
    b"heap 1 1 0 3 1 0000",
    b"begin 0\n",
]

# lines without their line feed
BAD_LINES = [
    b"",
    b" ",
    b"begin",
    b"begin ",
    b"begin  0",
    b"begin 0 ",
    b" begin 0",
    b"begin 0 1",
    b"begin 256",
    b"begin 00",
    b"begin 01",
    b"begin +1",
    b"begin -0",
    b"begin 1x",
    b"begin 0\r",
    b"begin 0\0",
    b"Begin 0",
    b"begins 0",
    b"get 0",
    b"get 0 18446744073709551616",
    b"get 0 -1",
    b"get 0 1 1",
    b"get  0 1",
    b"insert 0 1 5 0 0 0",
    b"insert 0 1 5 0 0 0 ",
    b"insert 0 1 5 0 0 -",
    b"insert 0 1 -0 0 0 0 -",
    b"insert 0 1 05 0 0 0 -",
    b"insert 0 1 +5 0 0 0 -",
    b"insert 0 1 9223372036854775808 0 0 0 -",
    b"insert 0 1 -9223372036854775809 0 0 0 -",
    b"insert 0 1 - 0 0 0 -",
    b"insert 0 1 5 0 0 0 0A",
    b"insert 0 1 5 0 0 0 0a1",
    b"insert 0 1 5 0 0 0 -0a",
    b"insert 0 1 5 0 0 0 - -",
    b"ids ",
    b"ids 0",
    b"page",
    b"page 4294967296",
    b"takepage",
    b"takepage ",
    b"takepage 0",
    b"takepage 0 ",
    b"takepage  0 0",
    b"takepage 0  0",
    b"takepage 256 0",
    b"takepage 0 4294967296",
    b"takepage 0 00",
    b"takepage 0 -0",
    b"takepage 0 0 0",
    b"prune",
    b"prune 4294967296",
    b"prune 0 0",
    b"apply",
    b"apply 0",
    b"apply 0 ",
    b"apply  0 0",
    b"apply 4294967296 0",
    b"apply 0 18446744073709551616",
    b"apply 0 00",
    b"apply -0 0",
    b"apply 0 0 ",
    b"apply 0 0 u",
    b"apply 0 0 u01",
    b"apply 0 0 u65536",
    b"apply 0 0 d-1",
    b"apply 0 0 1",
    b"apply 0 0 x1",
    b"apply 0 0 U1",
    b"apply 0 0 u1 ",
    b"apply 0 0 u1  d2",
    b"apply 0 0 u1,d2",
    b"apply 0 0 u1:2",
    b"apply 0 0 r1",
    b"apply 0 0 r1:",
    b"apply 0 0 r:1",
    b"apply 0 0 r1:01",
    b"apply 0 0 r1:65536",
    b"apply 0 0 r1:2:3",
    b"apply 0 0 r1 :2",
    b"vacuum",
    b"vacuum ",
    b"vacuum begin",
    b"vacuum begin ",
    b"vacuum begin full",
    b"vacuum begin normal ",
    b"vacuum begin  normal",
    b"vacuum  begin normal",
    b"vacuum step 0",
    b"vacuum finish 1",
    b"vacuum Cancel",
    b"vacuumstep",
    b"vacuums step",
    b"heap 4 1000 0 3 64 0000",
    b"update",
    b"update 256 1 5 0 0 0 -",
    b"update 0 1 5 0 0 0",
    b"update 0 1 5 0 0 0 0A",
    b"update 0 1 5 0 0 0 - 1",
    b"updates 0 1 5 0 0 0 -",
    b"delete 0",
    b"delete 256 1",
    b"delete 0 18446744073709551616",
    b"delete 0 1 -",
    b"delete 0  1",
    b"savepoint",
    b"savepoint 256",
    b"savepoint 0 0",
    b"savepoints 0",
    b"rollback 0",
    b"rollback_to 0",
    b"rollback to 0",
    b"rollbackto",
    b"rollbackto 00",
    b"rollbackto 256",
    b"release",
    b"release  0",
    b"release 0 1",
    b"openindex",
    b"openindex 0",
    b"openindex 0 0",
    b"openindex 0 0 0",
    b"openindex 0 0 0 ",
    b"openindex 0 0 0 0 0",
    b"openindex 256 0 0 0",
    b"openindex 0 256 0 0",
    b"openindex 0 0 -0 0",
    b"openindex 0 0 0 -0",
    b"openindex 0 0 00 1",
    b"openindex 0 0 0 01",
    b"openindex 0 0 +1 2",
    b"openindex 0 0 - 2",
    b"openindex 0 0 170141183460469231731687303715884105728 0",
    b"openindex 0 0 0 170141183460469231731687303715884105728",
    b"openindex 0 0 -170141183460469231731687303715884105729 0",
    b"openindex 0 0 0 -170141183460469231731687303715884105729",
    b"openindex  0 0 0 0",
    b"openindexes 0 0 0 0",
    b"openheap",
    b"openheap 256",
    b"openheap 0 0",
    b"openkeys",
    b"openkeys 0",
    b"openkeys 0 0",
    b"openkeys 0 0 ",
    b"openkeys 0 0 0 0",
    b"openkeys 256 0 0",
    b"openkeys 0 -0 0",
    b"openkeys 0 00 1",
    b"openkeys 0 0 +1",
    b"openkeys 0 0 170141183460469231731687303715884105728",
    b"openkeys 0 -170141183460469231731687303715884105729 0",
    b"openkeys  0 0 0",
    b"open 0",
    b"next",
    b"next 0",
    b"next 0 65536",
    b"next 0 -1",
    b"next 0 00",
    b"next 256 0",
    b"next 0 1 1",
    b"close",
    b"close 256",
    b"close 0 0",
    b"entries",
    b"entries ",
    b"entries 256",
    b"entries -0",
    b"entries 0 0",
]


class LongLine(NamedTuple):
    start: bytes
    body: int  # how many bytes its body has
    length: int  # how long it is
    answer: str  # none to a bad line, of more than 4096 bytes


LONG_LINES = [
    LongLine(b"insert 0 1 5 0 0 0 ", 1024, 2067, "ok\n"),
    LongLine(b"insert 0 1 5 0 0 0 ", 1025, 2069, "error 13 TooLarge\n"),
    LongLine(b"insert 0 10 5 0 0 0 ", 2038, 4096, "error 13 TooLarge\n"),
    LongLine(b"insert 0 100 5 0 0 0 ", 2038, 4097, ""),
]

# scripts for threads, with the number of the first line that isn't allowed
BAD_WORKERS = [
    (b"", 1),
    (b"heap 0 1000 0 3 64 0000\n@0 begin 0\n", 1),
    (b"heap 4 1000 0 3 64 0000\n\n", 2),
    (b"heap 4 1000 0 3 64 0000\nbegin 0\n", 2),
    (b"heap 4 1000 0 3 64 0000\n@0 begin 0\n@8 begin 1\n", 3),
    (b"heap 4 1000 0 3 64 0000\n@00 begin 0\n", 2),
    (b"heap 4 1000 0 3 64 0000\n@ begin 0\n", 2),
    (b"heap 4 1000 0 3 64 0000\n@0\n", 2),
    (b"heap 4 1000 0 3 64 0000\n@0  begin 0\n", 2),
    (b"heap 4 1000 0 3 64 0000\n@0 wait wait begin 0\n", 2),
    (b"heap 4 1000 0 3 64 0000\n@0 wait\n", 2),
    (b"heap 4 1000 0 3 64 0000\n@0 ids\n", 2),
    (b"heap 4 1000 0 3 64 0000\n@0 page 0\n", 2),
    (b"heap 4 1000 0 3 64 0000\n@0 entries 0\n", 2),
    (b"heap 4 1000 0 3 64 0000\n@0 vacuum finish\n", 2),
    (b"heap 4 1000 0 3 64 0000\n@0 begin 0\n@0 commit 0", 3),
]

# words of the command line, and what they ask for, if anything
COMMANDS: List[Tuple[Tuple[str, ...], str]] = [
    (("run",), "run"),
    ((), ""),
    (("",), ""),
    (("ru",), ""),
    (("runs",), ""),
    (("Run",), ""),
    ((" run",), ""),
    (("threads",), "threads"),
    (("inspect",), "inspect"),
    (("run", "run"), ""),
    (("run", ""), ""),
    (("inspect", "run"), ""),
    (("inspects",), ""),
    (("threads", "run"), ""),
    (("thread",), ""),
    # a byte that is no text
    (("\udcff",), ""),
]

# what is told of the page with one row, `VECTOR` of tests/pages/page_format.py
TOLD_OF_ONE_ROW = "page change 1 visible 0 slots 1 room 8088\n1 normal 3 0 1 8120 66 0006 0800\n"

# and of `SIX_SLOTS`, whose versions of 71, 66 and 69 bytes take 72 each, from 8192 down: 8168 less these and 24 for pointers are room
TOLD_OF_SIX_SLOTS = """page change 9 visible 0 slots 6 room 7928
1 redirect 3
2 unused
3 normal 4 0 1 8120 71 8006 2800
4 dead
5 normal 5 7 9 8048 66 4006 0000
6 normal 7 0 9 7976 69 8006 2900
"""

# bytes that may stand there in its place, and what is told then: all is visible, slot 3 is frozen, slot 5 is heap-only too
OTHERS_OF_SIX_SLOTS = {
    10: (0x04, "visible 0", "visible 1"),
    8120 + 21: (0x2B, "8006 2800", "8006 2b00"),
    8048 + 19: (0xC0, "4006 0000", "c006 0000"),
}


class BadPage(NamedTuple):
    changes: Dict[int, bytes]  # what stands there in that page
    size: int  # how many bytes are read, with a 0 behind the page
    words: str


BAD_PAGES = [
    BadPage({}, 8191, "bad page Length"),
    BadPage({}, 8193, "bad page Length"),
    BadPage({10: b"\x01"}, 8192, "bad page Header"),
    BadPage({12: b"\x1a"}, 8192, "bad page Bounds"),
    BadPage({24: b"\xc0"}, 8192, "bad page BadPointer 1"),
    BadPage({8140: b"\x00\x00"}, 8192, "bad page BadTuple 1"),
    BadPage({24: b"\x01\x00\x01\x00"}, 8192, "bad page BadRedirect 1"),
    # two pointers, the second as the first
    BadPage({12: b"\x20", 28: b"\xb8\x9f\x84\x00"}, 8192, "bad page Overlap 2"),
]
