"""Build the distributions of this package. pip calls these functions (PEP 517, PEP 660); they need no other package and no network.

Nothing is written into the folder of the sources.
"""
from __future__ import annotations

import base64
import hashlib
import io
import re
import tarfile
import zipfile
from pathlib import Path
from typing import Any, Iterator

TOP = Path(__file__).resolve().parents[1]
PACKAGE = TOP / "zegdrut"
EPOCH = (1980, 1, 1, 0, 0, 0)
"""The time of all files in a wheel, so that equal sources give equal wheels."""


def leave_nothing() -> None:
    """Remove the bytecode of this module, which Python has written next to it."""
    if __cached__:
        Path(__cached__).unlink(missing_ok=True)
        if Path(__cached__).parent.is_dir() and not any(Path(__cached__).parent.iterdir()):
            Path(__cached__).parent.rmdir()


leave_nothing()


def read_field(name: str) -> str:
    """Return a field of pyproject.toml. (Python 3.10 has no reader of TOML.)"""
    found = re.search(rf'^{name} = "(.*)"$', (TOP / "pyproject.toml").read_text(encoding="utf-8"), re.M)
    if found is None:
        raise ValueError(f"pyproject.toml has no field {name}")
    return found[1]


def make_metadata() -> str:
    """Return the metadata of the package."""
    lines = ["Metadata-Version: 2.1", f"Name: {read_field('name')}", f"Version: {read_field('version')}", f"Summary: {read_field('description')}",
             f"Requires-Python: {read_field('requires-python')}", "Provides-Extra: arrays", 'Requires-Dist: numpy; extra == "arrays"',
             "Description-Content-Type: text/markdown"]
    return "\n".join(lines) + "\n\n" + (TOP / "README.md").read_text(encoding="utf-8")


def list_sources() -> Iterator[tuple[str, bytes]]:
    """Yield the name and the bytes of each file of the package."""
    for path in sorted(PACKAGE.rglob("*")):
        if path.is_file() and "__pycache__" not in path.parts:
            yield path.relative_to(TOP).as_posix(), path.read_bytes()


def write_wheel(folder: str, files: list[tuple[str, bytes]]) -> str:
    """Write a wheel with these files and their record. Return its name."""
    version = read_field("version")
    info = f"zegdrut-{version}.dist-info"
    files = [*files, (f"{info}/METADATA", make_metadata().encode()),
             (f"{info}/WHEEL", b"Wheel-Version: 1.0\nGenerator: zegdrut_build\nRoot-Is-Purelib: true\nTag: py3-none-any\n"),
             (f"{info}/entry_points.txt", b"[console_scripts]\nzegdrut = zegdrut.__main__:main\n")]
    record = "".join(f"{name},sha256={encode_hash(data)},{len(data)}\n" for name, data in files) + f"{info}/RECORD,,\n"
    name = f"zegdrut-{version}-py3-none-any.whl"
    with zipfile.ZipFile(Path(folder, name), "w", zipfile.ZIP_DEFLATED) as wheel:
        for path, data in [*files, (f"{info}/RECORD", record.encode())]:
            entry = zipfile.ZipInfo(path, EPOCH)
            entry.external_attr = 0o644 << 16
            entry.compress_type = zipfile.ZIP_DEFLATED
            wheel.writestr(entry, data)
    return name


def encode_hash(data: bytes) -> str:
    """Return the SHA-256 of a file as a record has it."""
    return base64.urlsafe_b64encode(hashlib.sha256(data).digest()).rstrip(b"=").decode()


def build_wheel(wheel_directory: str, config_settings: Any = None, metadata_directory: Any = None) -> str:
    """Write the wheel. Return its name."""
    return write_wheel(wheel_directory, list(list_sources()))


def build_editable(wheel_directory: str, config_settings: Any = None, metadata_directory: Any = None) -> str:
    """Write a wheel that refers to this folder, for `pip install --editable`. Return its name."""
    return write_wheel(wheel_directory, [("zegdrut.pth", f"{TOP}\n".encode())])


def build_sdist(sdist_directory: str, config_settings: Any = None) -> str:
    """Write the archive of the sources. Return its name."""
    top = f"zegdrut-{read_field('version')}"
    own = [(name, (TOP / name).read_bytes()) for name in ("pyproject.toml", "README.md", "build_backend/zegdrut_build.py")]
    with tarfile.open(Path(sdist_directory, f"{top}.tar.gz"), "w:gz", format=tarfile.PAX_FORMAT) as archive:
        for name, data in [("PKG-INFO", make_metadata().encode()), *own, *list_sources()]:
            entry = tarfile.TarInfo(f"{top}/{name}")
            entry.size = len(data)
            archive.addfile(entry, io.BytesIO(data))
    return f"{top}.tar.gz"
