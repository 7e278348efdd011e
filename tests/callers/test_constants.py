"""Compares the numbers and layouts of the Python module with those of the header: test_constants.py HEADER STATUSES.

STATUSES has a line for each status that the library has answered under that name (statuses.c prints them). CC names the C compiler."""
import ctypes
import os
import pathlib
import re
import subprocess
import sys
import tempfile
from typing import Dict, Set

import sandpipercot as sp
from sandpipercot import _c


ROOT = pathlib.Path(__file__).resolve().parent.parent.parent


def enumeration(header: str, name: str) -> Dict[str, int]:
    """The constants of an enum of the header, without their prefix."""
    body = re.search(rf"enum {name} {{(.*?)}};", header, re.S)
    assert body, name
    return {key: int(value) for key, value in re.findall(r"SANDPIPER_(\w+) = (\d+)", body[1])}


def check_layouts(folder: pathlib.Path) -> None:
    """The size of each struct, and the place and size of each field, are those that a C program prints."""
    structs = {
        "sandpiper": _c.Handle,
        "sandpiper_ticket": _c.Ticket,
        "sandpiper_settings": _c.Settings,
        "sandpiper_row": _c.Row,
        "sandpiper_slot": _c.Slot,
        "sandpiper_piece": _c.Piece,
        "sandpiper_state": _c.State,
        "sandpiper_page": _c.Page,
        "sandpiper_action": _c.Action,
        "sandpiper_place": _c.Place,
        "sandpiper_reason": _c.Reason,
        "sandpiper_shown": _c.Shown,
        "sandpiper_snapshot": _c.Snapshot,
        "sandpiper_session": _c.Session,
        "sandpiper_horizon": _c.Horizon,
        "sandpiper_id": _c.Id,
        "sandpiper_fate": _c.Fate,
        "sandpiper_vacuum": _c.Vacuum,
    }
    lines, ours = ["#include <sandpipercot.h>", "#include <stddef.h>", "#include <stdio.h>", "int main(void) {"], []
    for name, struct in structs.items():
        lines.append(f'printf("{name} %zu\\n", sizeof(struct {name}));')
        ours.append(f"{name} {ctypes.sizeof(struct)}")
        for field, *_ in struct._fields_:
            place = getattr(struct, field)
            place_in_c = f"offsetof(struct {name}, {field}), sizeof((struct {name}){{0}}.{field})"
            lines.append(f'printf("{field} %zu %zu\\n", {place_in_c});')
            ours.append(f"{field} {place.offset} {place.size}")
    (folder / "layouts.c").write_text("\n".join([*lines, "return 0; }"]))
    program = folder / "layouts"
    subprocess.run([os.environ.get("CC", "cc"), "-I", sys.argv[1], folder / "layouts.c", "-o", program], check=True)
    said = subprocess.run([program], check=True, capture_output=True, text=True).stdout.splitlines()
    assert said == ours, (said, ours)


def main() -> None:
    header = pathlib.Path(sys.argv[1], "sandpipercot.h").read_text()
    statuses = enumeration(header, "sandpiper_status")
    assert {it.name: it.value for it in sp.Status} == statuses, statuses
    assert {it.name: it.value for it in sp.Kind} == enumeration(header, "sandpiper_kind")
    assert {it.name: it.value for it in sp.PieceKind} == enumeration(header, "sandpiper_piece_kind")
    assert {it.name: it.value for it in sp.ActionKind} == enumeration(header, "sandpiper_action_kind")
    for kind in (sp.CursorKind, sp.FateKind, sp.ReasonKind):
        words = re.sub("(?<!^)(?=[A-Z])", "_", kind.__name__).lower()
        assert {it.name: it.value for it in kind} == enumeration(header, f"sandpiper_{words}"), kind
    assert {it.name: it.value for it in sp.IdStatusKind} == enumeration(header, "sandpiper_id_status")
    for kind in (sp.Holder, sp.Phase):
        assert {it.name: it.value for it in kind} == enumeration(header, f"sandpiper_{kind.__name__.lower()}"), kind
    faults = {"PAGE_SOUND": 0, **{"PAGE_" + it.name: it.value for it in sp.FaultKind}}
    assert faults == enumeration(header, "sandpiper_page_fault"), faults
    answered: Set[str] = set(pathlib.Path(sys.argv[2]).read_text().split())
    assert answered == set(statuses), answered ^ set(statuses)

    defines = dict(re.findall(r"#define SANDPIPER_(\w+) \"?([\d.]+)", header))
    major, minor = map(str, sp.VERSION)
    ours = {"SESSIONS": str(sp.SESSIONS), "SAVEPOINTS": str(sp.SAVEPOINTS), "BODY": str(sp.BODY), "PAGE_BYTES": str(sp.PAGE_BYTES)}
    ours.update(PAGE_ROWS=str(sp.PAGE_ROWS), PICTURE_PAGES=str(sp.PICTURE_PAGES))
    ours.update(VERSION=sp.__version__, VERSION_MAJOR=major, VERSION_MINOR=minor)
    assert defines == ours, defines
    assert f'version = "{sp.__version__}"' in (ROOT / "python/pyproject.toml").read_text()
    widest = re.search(r"#define SANDPIPER_WIDEST {(.*?), {", header)
    defaults = sp.Table.__init__.__kwdefaults__
    assert widest and [int(it.rstrip("u")) for it in widest[1].split(", ")] == [it for it in defaults.values() if isinstance(it, int)]

    # a class for each refusal, and a call for each function (`sandpiper_words` is no call: the header holds it whole)
    refusals = {it.status for it in sp.Refused.__subclasses__()}
    assert refusals == {it for it in sp.Status if it >= sp.Status.NOT_OPEN}
    assert set(re.findall(r"^uint32_t sandpiper_(\w+)\(", header, re.M)) == set(_c.ARGUMENTS)
    # (a struct that nothing names is gone before the library writes to its place)
    nameless = [path.name for path in pathlib.Path(sp.__file__).parent.glob("*.py") if re.search(r"addressof\(_c\.\w+\(", path.read_text())]
    assert not nameless, f"the place of a struct that is gone: {nameless}"
    with tempfile.TemporaryDirectory() as folder:
        check_layouts(pathlib.Path(folder))
    print(f"{len(statuses)} statuses, each answered by the library; 18 structs, {len(_c.ARGUMENTS)} calls: all as the header has them")


if __name__ == "__main__":
    main()
