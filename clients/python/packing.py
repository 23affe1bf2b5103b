#!/usr/bin/python3
"""Builds the wheel and the source archive of the client, with the program in it, by Python's own library alone.

It is the backend that `pip install` of this folder calls (PEP 517, PEP 660), so that nothing is fetched.
usage: packing.py FOLDER    puts the wheel into a folder, and prints its name
"""
from __future__ import annotations

import base64
import hashlib
import io
import os
import stat
import sys
import tarfile
import tomllib
import zipfile
from collections.abc import Iterator
from pathlib import Path
from typing import Any

HERE = Path(__file__).resolve().parent
CHECKOUT = HERE.parents[1]
# the program wants a C library of this version, on this machine
TAG = "py3-none-manylinux_2_34_x86_64"
_PAGES = ("docs/bkd.1", "share/man/man1/bkd.1"), ("docs/completion/bkd.bash", "share/bash-completion/completions/bkd")
# one time for all files, so that the same sources make the same archive
_WHEN = (2020, 1, 1, 0, 0, 0)
_SECONDS = 1_577_836_800
_KEPT = {".py", ".html", ".js", ".typed", ".css", ".svg"}


def about() -> dict[str, Any]:
    """The project's table, with its version."""
    found = tomllib.loads((HERE / "pyproject.toml").read_text())["project"]
    told: dict[str, str] = {}
    exec((HERE / "bkd" / "version.py").read_text(), told)
    return found | {"version": told["__version__"]}


def program() -> Path:
    """The program that goes into the package; an error where there is none of these sources."""
    packed = HERE / "bkd" / "bin" / "bkd"
    if packed.is_file():
        return packed
    sys.path.insert(0, str(HERE))
    from bkd import program as sought
    words = sought.of_checkout()
    if words is None or words == (str(CHECKOUT / "bkd"),):
        raise SystemExit("packing: there is no program of these sources; ./bkd --build makes one")
    return Path(words[0])


def license_file() -> Path:
    """The license, of the checkout or of the source archive."""
    return next(path for path in (HERE / "LICENSE", CHECKOUT / "LICENSE") if path.is_file())


def metadata() -> str:
    """The core metadata (version 2.1)."""
    told = about()
    lines = ["Metadata-Version: 2.1", f"Name: {told['name']}", f"Version: {told['version']}",
             f"Summary: {told['description']}", f"License: {told['license']['text']}",
             f"Keywords: {','.join(told['keywords'])}", f"Requires-Python: {told['requires-python']}",
             "License-File: LICENSE", "Description-Content-Type: text/markdown"]
    lines += [f"Classifier: {one}" for one in told["classifiers"]]
    for extra, needed in told["optional-dependencies"].items():
        lines.append(f"Provides-Extra: {extra}")
        lines += [f"Requires-Dist: {one}; extra == '{extra}'" for one in needed]
    return "\n".join(lines) + "\n\n" + (HERE / "README.md").read_text()


def _info_name() -> str:
    told = about()
    return f"{told['name']}-{told['version']}"


def sources() -> Iterator[tuple[str, Path]]:
    """The package's own files, by their names in the archive."""
    for path in sorted((HERE / "bkd").rglob("*")):
        if path.is_file() and path.suffix in _KEPT and "__pycache__" not in path.parts:
            yield path.relative_to(HERE).as_posix(), path


class _Wheel:
    """A wheel that is written: files, and then their record."""

    def __init__(self, folder: str | os.PathLike[str], tag: str) -> None:
        self._info = _info_name()
        self.name = f"{self._info}-{tag}.whl"
        self._zip = zipfile.ZipFile(Path(folder) / self.name, "w", zipfile.ZIP_DEFLATED)
        self._record: list[str] = []
        self._tag = tag

    def add(self, name: str, data: bytes, mode: int = 0o644) -> None:
        entry = zipfile.ZipInfo(name, _WHEN)
        entry.external_attr = (stat.S_IFREG | mode) << 16
        entry.compress_type = zipfile.ZIP_DEFLATED
        self._zip.writestr(entry, data)
        digest = base64.urlsafe_b64encode(hashlib.sha256(data).digest()).rstrip(b"=").decode()
        self._record.append(f"{name},sha256={digest},{len(data)}")

    def finish(self) -> str:
        """Adds what tells of the wheel, and closes it."""
        told = f"{self._info}.dist-info"
        scripts = "".join(f"{name} = {at}\n" for name, at in about()["scripts"].items())
        pure = "true" if self._tag.endswith("-any") else "false"
        self.add(f"{told}/METADATA", metadata().encode())
        self.add(f"{told}/WHEEL", f"Wheel-Version: 1.0\nGenerator: packing\nRoot-Is-Purelib: {pure}\n"
                                  f"Tag: {self._tag}\n".encode())
        self.add(f"{told}/entry_points.txt", f"[console_scripts]\n{scripts}".encode())
        self.add(f"{told}/licenses/LICENSE", license_file().read_bytes())
        self._record.append(f"{told}/RECORD,,")
        self._zip.writestr(zipfile.ZipInfo(f"{told}/RECORD", _WHEN), "\n".join(self._record) + "\n")
        self._zip.close()
        return self.name


def build_wheel(wheel_directory: str, config_settings: Any = None, metadata_directory: str | None = None) -> str:
    """The wheel, with the program; its name."""
    found = program()
    wheel = _Wheel(wheel_directory, TAG)
    for name, path in sources():
        wheel.add(name, path.read_bytes())
    wheel.add("bkd/bin/bkd", found.read_bytes(), 0o755)
    for path, name in _PAGES:
        if (CHECKOUT / path).is_file():
            wheel.add(f"{_info_name()}.data/data/{name}", (CHECKOUT / path).read_bytes())
    return wheel.finish()


def build_editable(wheel_directory: str, config_settings: Any = None, metadata_directory: str | None = None) -> str:
    """A wheel that points to this folder; the program is that of the checkout."""
    wheel = _Wheel(wheel_directory, "py3-none-any")
    wheel.add("bkd.pth", f"{HERE}\n".encode())
    return wheel.finish()


def build_sdist(sdist_directory: str, config_settings: Any = None) -> str:
    """The source archive, with the program; its name."""
    top, name = _info_name(), f"{_info_name()}.tar.gz"
    files = [(name, path.read_bytes(), 0o644) for name, path in sources()]
    files += [(name, (HERE / name).read_bytes(), 0o644) for name in ("pyproject.toml", "packing.py", "README.md")]
    files += [("LICENSE", license_file().read_bytes(), 0o644), ("PKG-INFO", metadata().encode(), 0o644),
              ("bkd/bin/bkd", program().read_bytes(), 0o755)]
    with tarfile.open(Path(sdist_directory) / name, "w:gz", format=tarfile.PAX_FORMAT) as archive:
        for path, data, mode in files:
            entry = tarfile.TarInfo(f"{top}/{path}")
            entry.size, entry.mode, entry.mtime = len(data), mode, _SECONDS
            archive.addfile(entry, io.BytesIO(data))
    return name


if __name__ == "__main__":
    if len(sys.argv) != 2:
        raise SystemExit(__doc__)
    print(build_wheel(sys.argv[1]))
