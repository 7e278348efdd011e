"""The library's structs and calls, by ctypes, as sandpipercot.h has them."""
from __future__ import annotations

import ctypes
import os
import pathlib
from ctypes import Structure, c_bool, c_int64, c_size_t, c_uint8, c_uint16, c_uint32, c_uint64, c_void_p
from typing import Any, Callable, Dict, List

SESSIONS = 64  # sessions are numbered from 0 to 63
PAGE_BYTES = 8192
SAVEPOINTS = 32  # that a session may have at a time
BODY = 1024  # bytes of the longest body
PAGE_ROWS = 291  # that a page may have
PICTURE_PAGES = 64  # that a picture may have

VERSION = (0, 4)  # of this module, and of the library that it takes


class Handle(Structure):
    _fields_ = [("held", c_void_p), ("is_open", c_bool)]


class Ticket(Structure):
    _fields_ = [("held", c_void_p), ("is_taken", c_bool)]


class Settings(Structure):
    _fields_ = [
        ("max_pages", c_uint32),
        ("stop_age", c_uint32),
        ("freeze_min_age", c_uint32),
        ("first_xid", c_uint32),
        ("dead_limit", c_uint32),
        ("indexed", c_bool * 4),
    ]


class Row(Structure):
    _fields_ = [("key", c_uint64), ("cols", c_int64 * 4), ("length", c_uint16), ("body", c_uint8 * BODY)]


class Slot(Structure):
    _fields_ = [("kind", c_uint32), ("target", c_uint32), ("xmin", c_uint32), ("xmax", c_uint32), ("key", c_uint64)]


class Piece(Structure):
    _fields_ = [("kind", c_uint32), ("number", c_uint32), ("oldest", c_uint32)]


class State(Structure):
    _fields_ = [
        ("next_id", c_uint32),
        ("oldest_id", c_uint32),
        ("ids_left", c_uint32),
        ("pages", c_uint32),
        ("open_sessions", c_uint64),
        ("entries", c_uint64 * 5),
        ("has_index", c_bool * 5),
        ("vacuum", c_uint32),
    ]


class Action(Structure):
    _fields_ = [("slot", c_uint16), ("kind", c_uint16), ("target", c_uint16)]


class Page(Structure):
    _fields_ = [("change", c_uint64), ("bits", c_uint32), ("slots", c_uint32)]


class Place(Structure):
    _fields_ = [("page", c_uint32), ("slot", c_uint16)]


class Reason(Structure):
    _fields_ = [("id", c_uint32), ("reason", c_uint32), ("limit", c_uint32), ("parent", c_uint32)]


class Shown(Structure):
    _fields_ = [("slot", c_uint16), ("is_seen", c_bool), ("maker", Reason), ("deleter", Reason)]


class Snapshot(Structure):
    _fields_ = [("is_kept", c_bool), ("is_overflowed", c_bool), ("xmin", c_uint32), ("xmax", c_uint32), ("listed", c_size_t)]


class Session(Structure):
    _fields_ = [
        ("is_by_statement", c_bool),
        ("has_failed", c_bool),
        ("is_waiting", c_bool),
        ("waits_for", c_uint8),
        ("cursor", c_uint32),
        ("savepoints", c_size_t),
        ("ids", c_size_t),
        ("snapshot", Snapshot),
    ]


class Horizon(Structure):
    _fields_ = [("id", c_uint32), ("holder", c_uint32), ("session", c_uint32)]


class Id(Structure):
    _fields_ = [("status", c_uint32), ("is_owned", c_bool), ("session", c_uint8)]


class Fate(Structure):
    _fields_ = [("kind", c_uint32), ("id", c_uint32), ("status", c_uint32), ("slot", c_uint32)]


class Vacuum(Structure):
    _fields_ = [
        ("mode", c_uint32),
        ("phase", c_uint32),
        ("index", c_uint32),
        ("next", c_uint32),
        ("collected", c_size_t),
        ("horizon", c_uint32),
        ("cutoff", c_uint32),
    ]


# A pointer is passed as a number, which costs a third of a typed one. Each is to a struct above that its caller keeps.
POINTER, SESSION = c_void_p, c_uint8
ARGUMENTS: Dict[str, List[Any]] = {
    "open": [POINTER, POINTER],
    "close": [POINTER],
    "keep_places": [POINTER, c_bool],
    "begin": [POINTER, SESSION],
    "begin_read_committed": [POINTER, SESSION],
    "commit": [POINTER, SESSION],
    "abort": [POINTER, SESSION],
    "savepoint": [POINTER, SESSION],
    "rollback_to": [POINTER, SESSION],
    "release": [POINTER, SESSION],
    "get": [POINTER, SESSION, c_uint64, POINTER],
    "insert": [POINTER, SESSION, POINTER],
    "update": [POINTER, SESSION, POINTER],
    "insert_many": [POINTER, SESSION, POINTER, c_size_t, POINTER],
    "update_many": [POINTER, SESSION, POINTER, c_size_t, POINTER],
    "delete": [POINTER, SESSION, c_uint64],
    "open_heap": [POINTER, SESSION],
    "open_by_key": [POINTER, SESSION, c_uint64, c_uint64],
    "open_index": [POINTER, SESSION, c_uint8, c_int64, c_int64],
    "open_keys": [POINTER, SESSION, c_uint64, c_uint64],
    "next": [POINTER, SESSION, POINTER, c_size_t, POINTER],
    "close_cursor": [POINTER, SESSION],
    "take_page": [POINTER, SESSION, c_uint32, POINTER],
    "ticket_rows": [POINTER, POINTER, c_size_t, POINTER],
    "close_ticket": [POINTER],
    "create_index": [POINTER, c_uint8],
    "prune": [POINTER, c_uint32],
    "apply_plan": [POINTER, c_uint32, c_uint64, POINTER, c_size_t],
    "vacuum_begin": [POINTER, c_bool],
    "vacuum_step": [POINTER, POINTER],
    "vacuum_cancel": [POINTER],
    "page_bytes": [POINTER, c_uint32, POINTER, c_size_t],
    "check_page": [POINTER, c_size_t, POINTER],
    "slot_at": [POINTER, c_uint32, c_uint16, POINTER],
    "page_at": [POINTER, c_uint32, POINTER],
    "state_of": [POINTER, POINTER],
    "next_entry": [POINTER, c_uint64, POINTER],
    "explain": [POINTER, SESSION, POINTER, c_size_t, POINTER],
    "session_of": [POINTER, SESSION, POINTER],
    "own_id": [POINTER, SESSION, c_size_t, POINTER],
    "ids_at_savepoint": [POINTER, SESSION, c_size_t, POINTER],
    "listed_id": [POINTER, SESSION, c_size_t, POINTER],
    "horizon_of": [POINTER, POINTER],
    "id_of": [POINTER, c_uint32, POINTER],
    "fate_of": [POINTER, c_uint32, c_uint16, POINTER],
    "plan_of": [POINTER, c_uint32, POINTER, c_size_t, POINTER, POINTER],
    "vacuum_of": [POINTER, POINTER],
    "draw": [POINTER, POINTER, c_size_t, POINTER, c_size_t, POINTER],
    "version": [],
}


def _loaded() -> Dict[str, Callable[..., int]]:
    """The calls of the library that SANDPIPERCOT names, or else of the one that was installed with this module."""
    here = pathlib.Path(__file__).resolve().parent
    # (a wheel has it in this folder, and tools/build_c.sh in the folder above that of its Python modules)
    places = [here / "libsandpipercot.so", here.parent.parent / "libsandpipercot.so"]
    path = os.environ.get("SANDPIPERCOT") or str(next((it for it in places if it.exists()), places[1]))
    try:
        # (under PyDLL the interpreter's lock is kept, so that calls come one at a time)
        library = ctypes.PyDLL(path)
    except OSError as fault:
        raise ImportError(f"{fault}: build it by tools/build_c.sh PREFIX, and set SANDPIPERCOT to its path") from fault
    calls: Dict[str, Callable[..., int]] = {}
    for name, arguments in ARGUMENTS.items():
        call = getattr(library, "sandpiper_" + name)
        call.argtypes, call.restype = arguments, c_uint32
        calls[name] = call
    if calls["version"]() != VERSION[0] * 100 + VERSION[1]:
        raise ImportError(f"{path} is of another version than this module, {VERSION[0]}.{VERSION[1]}")
    return calls


CALLS = _loaded()
