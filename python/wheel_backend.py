"""Makes the wheel of the Python module, with the library in it and without a tool beside Python itself.

    python3 python/wheel_backend.py LIBRARY FOLDER

puts it into a folder, as tools/build_c.sh does. pip calls `build_wheel`, and the library is then the one that SANDPIPERCOT names.
"""
from __future__ import annotations

import base64
import hashlib
import os
import pathlib
import re
import sys
import zipfile
from typing import Any, Dict, Optional

HERE = pathlib.Path(__file__).resolve().parent
PROJECT = dict(re.findall(r'^([\w-]+) = "(.*)"$', (HERE / "pyproject.toml").read_text(), re.M))
NAME = f"{PROJECT['name']}-{PROJECT['version']}"
TAG = "py3-none-linux_x86_64"
WHEEL = f"Wheel-Version: 1.0\nGenerator: {PROJECT['build-backend']}\nRoot-Is-Purelib: false\nTag: {TAG}\n"
METADATA = (
    f"Metadata-Version: 2.1\nName: {PROJECT['name']}\nVersion: {PROJECT['version']}\n"
    f"Summary: {PROJECT['description']}\nRequires-Python: {PROJECT['requires-python']}\n"
)


def files(library: pathlib.Path) -> Dict[str, bytes]:
    """What the wheel holds, but for its record."""
    found = {f"sandpipercot/{it.name}": it.read_bytes() for it in sorted((HERE / "sandpipercot").glob("*")) if it.is_file()}
    found["sandpipercot/libsandpipercot.so"] = library.read_bytes()
    found[f"{NAME}.dist-info/METADATA"] = METADATA.encode()
    found[f"{NAME}.dist-info/WHEEL"] = WHEEL.encode()
    return found


def record(held: Dict[str, bytes], name: str) -> bytes:
    """The record: of each file its checksum and size, and of the record itself neither."""
    lines = []
    for path, content in held.items():
        checksum = base64.urlsafe_b64encode(hashlib.sha256(content).digest()).rstrip(b"=").decode()
        lines.append(f"{path},sha256={checksum},{len(content)}\n")
    return "".join([*lines, f"{name},,\n"]).encode()


def make(library: pathlib.Path, folder: pathlib.Path) -> str:
    """Makes the wheel, and answers its name. The same files give the same bytes."""
    held, name = files(library), f"{NAME}.dist-info/RECORD"
    held[name] = record(held, name)
    wheel = f"{NAME}-{TAG}.whl"
    with zipfile.ZipFile(folder / wheel, "w", zipfile.ZIP_DEFLATED) as archive:
        for path, content in held.items():
            entry = zipfile.ZipInfo(path, (1980, 1, 1, 0, 0, 0))
            entry.external_attr, entry.compress_type = 0o644 << 16, zipfile.ZIP_DEFLATED
            archive.writestr(entry, content)
    return wheel


def build_wheel(wheel_directory: str, config_settings: Optional[Dict[str, Any]] = None, metadata_directory: Optional[str] = None) -> str:
    """What pip calls."""
    library = os.environ.get("SANDPIPERCOT")
    if not library:
        raise RuntimeError("SANDPIPERCOT is to name libsandpipercot.so, which tools/build_c.sh PREFIX builds")
    return make(pathlib.Path(library), pathlib.Path(wheel_directory))


if __name__ == "__main__":
    if len(sys.argv) != 3:
        sys.exit("usage: python3 python/wheel_backend.py LIBRARY FOLDER")
    print(make(pathlib.Path(sys.argv[1]), pathlib.Path(sys.argv[2])))
