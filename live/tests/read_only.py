"""Run a Python program on a disk where a folder can only be read, until a file exists.

    read_only.py FOLDER SWITCH PROGRAM [ARGUMENT ..]
"""
from __future__ import annotations

import builtins
import errno
import os
import runpy
import sys
from pathlib import Path
from typing import Any

FOLDER, SWITCH = sys.argv[1:3]


def refuse(name: str, writes: Any) -> None:
    """Let a function of `os` fail as it does on a read-only disk, if its path is in the folder and `writes` says so."""
    does = getattr(os, name)

    def call(path: Any, *given: Any, **named: Any) -> Any:
        if writes(*given, **named) and not isinstance(path, int) and os.path.abspath(path).startswith(FOLDER):
            if not os.path.exists(SWITCH):
                raise OSError(errno.EROFS, os.strerror(errno.EROFS), os.fspath(path))
        return does(path, *given, **named)
    setattr(os, name, call)


def opens_to_write(flags: int, *_: Any, **__: Any) -> bool:
    return bool(flags & (os.O_WRONLY | os.O_RDWR | os.O_CREAT))


def open_here(path: Any, mode: str = "r", *given: Any, **named: Any) -> Any:
    if set(mode) & set("wax+") and not isinstance(path, int):
        os.close(os.open(path, os.O_WRONLY | os.O_CREAT))  # it fails on a read-only path
    return opened(path, mode, *given, **named)


opened = builtins.open
refuse("open", opens_to_write)
for changes in ("rename", "replace", "unlink", "mkdir", "remove", "rmdir"):
    refuse(changes, lambda *_, **__: True)
setattr(builtins, "open", open_here)
sys.argv[:] = sys.argv[3:]
sys.path[0] = str(Path(sys.argv[0]).parent)
runpy.run_path(sys.argv[0], run_name="__main__")
