"""Builds the wheel: links a shared object from libexports.a, and packs it with the package.

A build backend for pip (PEP 517) that needs a C compiler and nothing else. `python3 backend.py FOLDER` writes the wheel
into a folder.
"""
from __future__ import annotations

import base64
import hashlib
import os
import platform
import re
import shlex
import shutil
import subprocess
import sys
import tempfile
import zipfile
from pathlib import Path
from typing import Dict, List, Mapping, NoReturn, Optional

HERE = Path(__file__).resolve().parent
ROOT = HERE.parent.parent
LIBRARY = ROOT / "target" / "staticlib" / "libexports.a"
SHARED = "libaspdrupe.so"
TAG = "py3-none-linux_x86_64"


def stop(why: str) -> NoReturn:
    """Ends the build with a line that pip shows."""
    raise SystemExit(f"aspdrupe: {why}")


def version() -> str:
    """The version of the Rust workspace."""
    found = re.search(r'^version = "([^"]+)"$', (ROOT / "Cargo.toml").read_text(), re.MULTILINE)
    return found[1] if found else stop("Cargo.toml has no version")


def link(output: Path) -> None:
    """Links the shared object."""
    if sys.platform != "linux" or platform.machine() != "x86_64":
        stop("the library is for Linux on x86-64")
    if not LIBRARY.is_file():
        stop(f"{LIBRARY} is missing: run `bindings/library` in the repository's root first")
    compiler = shlex.split(os.environ.get("CC", "cc"))
    if not compiler or shutil.which(compiler[0]) is None:
        stop("there is no C compiler `cc`; the variable CC names another")
    whole = ["-Wl,--whole-archive", str(LIBRARY), "-Wl,--no-whole-archive"]
    if subprocess.run([*compiler, "-shared", "-o", str(output), *whole]).returncode != 0:
        stop(f"{LIBRARY} could not be linked")


def members(info: str) -> Dict[str, bytes]:
    """The files of the wheel, without the list of them."""
    package = [path for path in sorted((HERE / "aspdrupe").iterdir()) if path.suffix in (".py", ".typed")]
    found = {f"aspdrupe/{path.name}": path.read_bytes() for path in package}
    with tempfile.TemporaryDirectory() as room:
        link(Path(room) / SHARED)
        found[f"aspdrupe/{SHARED}"] = (Path(room) / SHARED).read_bytes()
    about = "Checks inconsistency proofs of ground logic programs; the work is done by proved code"
    named = f"Metadata-Version: 2.1\nName: aspdrupe\nVersion: {version()}\n"
    found[f"{info}/METADATA"] = f"{named}Summary: {about}\nRequires-Python: >=3.9\n".encode()
    kind = f"Wheel-Version: 1.0\nGenerator: backend.py\nRoot-Is-Purelib: false\nTag: {TAG}\n"
    return {**found, f"{info}/WHEEL": kind.encode()}


def record(found: Mapping[str, bytes], path: str) -> bytes:
    """The list of the files, with itself, which has no sum."""

    def line(name: str, content: bytes) -> str:
        total = base64.urlsafe_b64encode(hashlib.sha256(content).digest()).rstrip(b"=").decode()
        return f"{name},sha256={total},{len(content)}\n"

    return ("".join(line(name, content) for name, content in found.items()) + f"{path},,\n").encode()


def build_wheel(
    wheel_directory: str, config_settings: Optional[object] = None, metadata_directory: Optional[str] = None
) -> str:
    """Writes the wheel, and says its name."""
    info = f"aspdrupe-{version()}.dist-info"
    found = members(info)
    found[f"{info}/RECORD"] = record(found, f"{info}/RECORD")
    name = f"aspdrupe-{version()}-{TAG}.whl"
    with zipfile.ZipFile(Path(wheel_directory) / name, "w", zipfile.ZIP_DEFLATED) as wheel:
        for path, content in found.items():
            wheel.writestr(path, content)
    return name


def get_requires_for_build_wheel(config_settings: Optional[object] = None) -> List[str]:
    """Nothing."""
    return []


def build_sdist(sdist_directory: str, config_settings: Optional[object] = None) -> str:
    """There is none: the library is built in the repository."""
    stop("there is no source distribution; install from the repository")


if __name__ == "__main__":
    if len(sys.argv) != 2:
        stop("usage: python3 backend.py FOLDER")
    print(build_wheel(sys.argv[1]))
