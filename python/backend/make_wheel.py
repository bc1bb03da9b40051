"""Makes the wheel that pip installs, with Python alone (PEP 517).

The library that `make lib` made goes with it, where this machine can load it; else the wheel has the package only, and the loader has to find the library.
"""
from __future__ import annotations

import base64
import hashlib
import pathlib
import re
import sysconfig
import zipfile
from typing import Dict, Optional

HERE = pathlib.Path(__file__).resolve().parent.parent
PACKAGE = HERE / "slt"
MADE = HERE.parent / "target" / "staticlib"
# The library is compiled for this machine alone.
PLATFORM = "linux-x86_64"


def version() -> str:
    """The package's own, which is that of the C interface."""
    found = re.search(r'^VERSION = "(.*)"$', (PACKAGE / "_library.py").read_text(encoding="utf-8"), re.M)
    assert found is not None
    return found[1]


def metadata() -> str:
    lines = [
        "Metadata-Version: 2.1",
        "Name: slt",
        f"Version: {version()}",
        "Summary: Proved reference slot mapper for 3GPP TS 25.211",
        "Requires-Python: >=3.9",
        "Description-Content-Type: text/markdown",
    ]
    return "\n".join(lines) + "\n\n" + (HERE / "README.md").read_text(encoding="utf-8")


def library() -> Optional[pathlib.Path]:
    path = MADE / f"libslt.so.{version().partition('.')[0]}"
    return path if sysconfig.get_platform() == PLATFORM and path.exists() else None


def recorded(path: str, content: bytes) -> str:
    """A file's line of the record: its name, its hash and its length."""
    digest = base64.urlsafe_b64encode(hashlib.sha256(content).digest()).rstrip(b"=").decode()
    return f"{path},sha256={digest},{len(content)}\n"


def build_wheel(wheel_directory: str, config_settings: object = None, metadata_directory: object = None) -> str:
    """Writes the wheel into the directory, and answers its name."""
    found, info = library(), f"slt-{version()}.dist-info"
    tag = "py3-none-" + (PLATFORM.replace("-", "_") if found else "any")
    files: Dict[str, bytes] = {f"slt/{path.name}": path.read_bytes() for path in sorted(PACKAGE.iterdir()) if path.suffix in (".py", ".typed")}
    if found:
        files[f"slt/{found.name}"] = found.read_bytes()
    files[f"{info}/METADATA"] = metadata().encode()
    files[f"{info}/WHEEL"] = f"Wheel-Version: 1.0\nGenerator: make_wheel\nRoot-Is-Purelib: {'false' if found else 'true'}\nTag: {tag}\n".encode()
    files[f"{info}/RECORD"] = "".join(recorded(path, content) for path, content in files.items()).encode() + f"{info}/RECORD,,\n".encode()
    name = f"slt-{version()}-{tag}.whl"
    with zipfile.ZipFile(pathlib.Path(wheel_directory) / name, "w", zipfile.ZIP_DEFLATED) as wheel:
        for path, content in files.items():
            wheel.writestr(path, content)
    return name
