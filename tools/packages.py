"""The Debian packages that ./start and ./check use: which are missing, and their installation. packages.txt lists them."""
from __future__ import annotations

import importlib.util
import os
import shutil
import sys
import time
from dataclasses import dataclass
from pathlib import Path
from typing import Collection, Iterable

import processes

LIST = Path(__file__).resolve().with_name("packages.txt")
DEBIAN_PYTHON = "/usr/bin/python3"
START, BROKER = "start", "broker"  # the users of packages for ./start, without and with a broker
LONGEST = 600.0  # seconds to wait while another process holds a lock of apt
LOOK = 1.0  # seconds between two tries to get the lock


@dataclass(frozen=True)
class Package:
    """A package, what shows that it is installed (the kind, and the name of a module or command or the path of a file), and who uses it."""

    name: str
    kind: str
    probe: str
    users: frozenset[str]

    def is_installed(self) -> bool:
        if self.kind == "module":
            return is_module(self.probe)
        if self.kind == "command":
            return shutil.which(self.probe) is not None
        return os.path.exists(self.probe)


def is_module(name: str) -> bool:
    """Return whether this Python can import a module."""
    try:
        return importlib.util.find_spec(name) is not None
    except ModuleNotFoundError:  # the package of the module is missing
        return False


def use_debian_python() -> None:
    """Run this script again with Debian's Python, which has the modules of Debian's packages, unless it is already running."""
    if sys.prefix != "/usr" and os.path.exists(DEBIAN_PYTHON):
        os.execv(DEBIAN_PYTHON, [DEBIAN_PYTHON, *sys.argv])


def read_list() -> list[Package]:
    """Return all packages of the list."""
    lines = [line.split() for line in LIST.read_text(encoding="utf-8").splitlines() if line and not line.startswith("#")]
    return [Package(name, kind, probe, frozenset(users)) for name, kind, probe, *users in lines]


def find_missing(users: Collection[str]) -> list[str]:
    """Return the packages that at least one of these users needs and that are not installed."""
    return [package.name for package in read_list() if package.users.intersection(users) and not package.is_installed()]


def command_line(missing: Iterable[str]) -> str:
    """Return the command that a user types to install packages."""
    return f"sudo apt-get install --no-install-recommends {' '.join(missing)}"


def may_install() -> bool:
    """Return whether this user may install packages."""
    return os.geteuid() == 0 and shutil.which("apt-get") is not None


def install(missing: list[str]) -> None:
    """Install packages, with a line on standard error. Raises processes.Failed, with the output of apt-get, if that fails."""
    with processes.Step(f"installing {' '.join(missing)}") as step:
        for words in (["update", "-q"], ["install", "-q", "-y", "--no-install-recommends", *missing]):
            run_apt(words, step)
    importlib.invalidate_caches()


def run_apt(words: list[str], step: processes.Step) -> None:
    """Run apt-get, and wait while another process holds one of its locks. (DPkg::Lock::Timeout does not cover the lock of `update`.)"""
    plain, end = {**os.environ, "DEBIAN_FRONTEND": "noninteractive", "LC_ALL": "C"}, time.monotonic() + LONGEST
    while True:
        try:
            return processes.run_quietly(["apt-get", *words], step, env=plain)
        except processes.Failed as fault:
            if "Could not get lock" not in str(fault) or time.monotonic() > end:
                raise
        time.sleep(LOOK)


def provide(users: Collection[str]) -> list[str]:
    """Install the packages that these users need, if this user may do so. Return the packages that are still missing."""
    missing = find_missing(users)
    if missing and may_install():
        try:
            install(missing)
        except processes.Failed as fault:
            print(f"not installed: {fault}", file=sys.stderr, flush=True)
        missing = find_missing(users)
    return missing
