"""The server of live, with one package for each subject; docs/ARCHITECTURE.md lists them."""
import sys
from pathlib import Path

LIVE = Path(__file__).resolve().parent.parent
PYTHON = LIVE.parent / "python"
DEBIAN = "/usr/bin/python3"  # it has the modules of Debian's packages
PACKAGES = {"aiohttp": "python3-aiohttp", "paho": "python3-paho-mqtt"}
if str(PYTHON) not in sys.path:
    sys.path.append(str(PYTHON))  # the package zegdrut


def explain_missing(fault: ModuleNotFoundError) -> str:
    """Return a sentence that says what to do about a module of Debian's packages that this Python does not have."""
    package = PACKAGES.get((fault.name or "").partition(".")[0])
    if package is None:
        raise fault
    if Path(sys.executable).resolve() != Path(DEBIAN).resolve():
        return f"{sys.executable} does not have the module {fault.name}. {DEBIAN} has it, with the package {package}: {DEBIAN} {sys.argv[0]} .."
    return f"{package} is not installed: apt-get install {package}"
