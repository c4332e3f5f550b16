"""Run `live/serve` on a disk that does not answer while the folder has a file `stalled`: for the file that it names, or for all
files if it is empty. While the folder has a file `failing`, each sync fails."""
from __future__ import annotations

import errno
import os
import runpy
import sys
import time
from pathlib import Path
from typing import Any

LIVE = Path(__file__).resolve().parent.parent
sys.path.insert(0, str(LIVE))
from server.journal import journal  # noqa: E402


def read(path: Path) -> str | None:
    """Return what a file has; None if there is no such file, which a test may remove at any time."""
    try:
        return path.read_text()
    except FileNotFoundError:
        return None


class Stalling:
    """Replaces `os` in the journal."""

    def __getattr__(self, name: str) -> Any:
        return getattr(os, name)

    @staticmethod
    def fsync(file: int) -> None:
        path = Path(os.readlink(f"/proc/self/fd/{file}"))
        folder = path if path.is_dir() else path.parent
        while os.fstat(file).st_size and read(folder / "stalled") in ("", path.name):
            time.sleep(0.05)
        if (folder / "failing").exists():
            raise OSError(errno.EIO, os.strerror(errno.EIO))
        os.fsync(file)


if __name__ == "__main__":
    setattr(journal, "os", Stalling())
    runpy.run_path(str(LIVE / "serve"), run_name="__main__")
