#!/usr/bin/python3
"""Start the laboratory: make a program if there is none, show a road of twelve cells, and serve a freeway to browsers.

    ./start [OPTION ..]        serves live; OPTION .. goes to live/serve (`live/serve --help` lists its options)
    ./start --script FILE      runs one script, and prints its replies
    ./start --no-live          ends after the road of twelve cells

Requires the Rattle kit (`rt` on the PATH) to make a program, once: about two minutes, without a proof. If you are root, it
installs the Debian package that live/serve needs; otherwise it prints the command to type. Without --folder the road is kept
in your data directory. Ctrl-C ends everything.
"""
from __future__ import annotations

import os
import sys

sys.dont_write_bytecode = True
import processes  # noqa: E402  (this script's folder is on the path)

if __name__ == "__main__":
    processes.end_on_signals()

import argparse  # noqa: E402
import json
import shutil
import subprocess
from importlib.machinery import SourceFileLoader
from importlib.util import module_from_spec, spec_from_loader
from pathlib import Path
from types import ModuleType

import packages
from built_programs import LABORATORY, TOP, crate_of, current_path, describe_standing, find_unwritable, note_path, unproved_path

SHOWN = 5  # README.md explains this many lines of the first script
SERVE = TOP / "live" / "serve"


class Problem(Exception):
    """Why the laboratory cannot start, and what to do."""


def read_options() -> tuple[argparse.Namespace, list[str]]:
    """Return the options of this script, and those to pass on to live/serve."""
    parser = argparse.ArgumentParser(prog="./start", description=__doc__, allow_abbrev=False, usage=argparse.SUPPRESS,
                                     formatter_class=argparse.RawDescriptionHelpFormatter)
    what = parser.add_mutually_exclusive_group()
    what.add_argument("--script", type=Path, metavar="FILE", help="run this script, such as examples/on_ramp.jsonl")
    what.add_argument("--no-live", action="store_true", help="do not serve live")
    parser.add_argument("--folder", type=Path, metavar="DIR", help="where live/serve keeps the road (default: your data directory)")
    parser.add_argument("--port", metavar="N", help="the port of live/serve (default: 8471, or the next free one)")
    options, others = parser.parse_known_args()
    if options.script and not os.path.isfile(options.script):
        parser.error(f"there is no file {options.script}")
    if others and (options.script or options.no_live):
        parser.error(f"live is not served, so {' '.join(others)} has no use")
    return options, others


def provide_packages(others: list[str]) -> None:
    """Install what live/serve needs. Raises Problem if this user may not."""
    has_broker = any(word.startswith("--broker") for word in others)
    missing = packages.provide([packages.START, packages.BROKER] if has_broker else [packages.START])
    if missing:
        raise Problem(f"Not installed: {' '.join(missing)}. Type this, and start again:\n    {packages.command_line(missing)}\n"
                      "`./start --no-live` and `./start --script FILE` work without it.")


def load_serve() -> ModuleType:
    """Load the script live/serve as a module, for its options and its ports."""
    sys.path.insert(0, str(SERVE.parent))  # as if the script were run
    loader = SourceFileLoader("live_serve", str(SERVE))
    spec = spec_from_loader(loader.name, loader)
    assert spec is not None
    module = module_from_spec(spec)
    loader.exec_module(module)
    return module


def default_folder() -> Path:
    """Return the folder of the road if --folder is not given: below XDG_DATA_HOME, or ~/.local/share."""
    data = Path(os.environ.get("XDG_DATA_HOME", ""))
    try:
        return (data if data.is_absolute() else Path.home() / ".local" / "share") / "zegdrut" / "road"
    except RuntimeError:
        raise Problem("You have no home directory to keep the road in. Name a folder with --folder.") from None


def find_folder_beside(serve: ModuleType, folder: Path) -> Path:
    """Return a folder, or another one beside it if its journal has a former form, and say so."""
    form = serve.form_of(folder)
    if form in (None, serve.JOURNAL_FORM):
        return folder
    beside = folder.with_name(f"{folder.name}-{serve.JOURNAL_FORM}")
    print(f"The road in {folder} was kept by another version of live, so it stays as it is: using {beside}.", file=sys.stderr, flush=True)
    return beside


def check_writable(folder: Path, advice: str) -> None:
    """Raise Problem, with the advice, if this user cannot write to a folder or create it."""
    why = find_unwritable(folder)
    if why:
        raise Problem(f"{why} {advice}")


def check_unserved(serve: ModuleType, folder: Path) -> None:
    """Raise Problem, with the address, if another server uses this folder."""
    try:
        if folder.exists():
            with serve.lock(folder):
                pass
    except serve.CannotStart:
        address = folder / "address"
        where = f":\n    {address.read_text(encoding='utf-8')}\nOpen that address, or" if address.exists() else ". End that server, or"
        raise Problem(f"a server is already using {folder}{where} name another folder with --folder.") from None


def serve_options(options: argparse.Namespace, others: list[str]) -> list[str]:
    """Return the options with which to run live/serve. End the process with a message if one of them is wrong."""
    serve = load_serve()
    folder = options.folder or find_folder_beside(serve, default_folder())
    port = options.port or str(serve.PORT)
    given = serve.read_options(["--folder", str(folder), "--port", port, *others])
    check_writable(given.folder, "Name another folder with --folder.")
    check_unserved(serve, given.folder)
    if options.port is None and given.port == serve.PORT:
        free = serve.find_free_port(given.listen, serve.PORT)
        if free is None:
            raise Problem(f"No port from {serve.PORT} on is free. Name one with --port.")
        if free != serve.PORT:
            print(f"Port {serve.PORT} is taken: using {free}.", file=sys.stderr, flush=True)
        port = str(free)
    return ["--folder", str(folder), "--port", port, *others]


def provide_program() -> Path:
    """Return the program to run, and make it if there is none of the present source text. Raises Problem if that fails."""
    given = os.environ.get("ROAD_LAB")
    if given:
        if not os.access(given, os.X_OK):
            raise Problem(f"ROAD_LAB names {given}, which is not a program. Unset it, or name a program.")
        return Path(given).absolute()
    program = current_path(LABORATORY) or make_program()
    note_path(program)
    standing = describe_standing(program)
    if standing:
        print(standing, file=sys.stderr, flush=True)
    return program


def make_program() -> Path:
    """Make an unproved program. Raises Problem if that fails."""
    if shutil.which("rt") is None:
        raise Problem("There is no `rt` on the PATH. It is the command of the Rattle kit, which makes the program. "
                      "Add the kit's folder:\n    export PATH=$PATH:KIT/bin")
    check_writable(crate_of(LABORATORY) / "out", f"The program is made there: copy {TOP} to a folder of your own, and start there.")
    status = processes.run([TOP / "tools" / "try-program"], stdin=subprocess.DEVNULL)
    if status:
        raise Problem("The program could not be made: the lines above say why.")
    return unproved_path(LABORATORY)


def show_rows(program: Path) -> None:
    """Run the first script of README.md, and print its first commands with their replies. Raises Problem if a reply is wrong."""
    crate = crate_of(LABORATORY)
    script, wanted = crate / "stdin", (crate / "stdout").read_text(encoding="utf-8").splitlines()
    ran = subprocess.run([program], input=script.read_bytes(), capture_output=True, check=False)
    replies = ran.stdout.decode(errors="replace").splitlines()
    if ran.returncode or replies != wanted:
        raise Problem(f"{program} gives wrong answers to {script.relative_to(TOP)}: {ran.stderr.decode(errors='replace')}")
    print("A road of twelve cells: a digit is a car's speed, . an empty cell, # a blocked one.\n")
    for command, reply in list(zip(script.read_text(encoding="utf-8").splitlines(), replies))[1:SHOWN]:
        print(f"    {command:<64} {json.loads(reply).get('cells', reply)}")
    print(flush=True)


def run_script(program: Path, path: Path) -> int:
    """Run a script with its replies on standard output, and return the program's status."""
    try:
        with open(path, "rb") as script:
            return processes.run([program], stdin=script)
    except OSError as fault:
        raise Problem(f"{path} cannot be read: {fault.strerror}.") from None


def serve(program: Path, serve_words: list[str]) -> int:
    """Serve until Ctrl-C, and return the status of live/serve."""
    print("Open this address in a browser. Ctrl-C ends the server; the same command starts it again, with the same road.", flush=True)
    return processes.run([SERVE, "--program", program, *serve_words], stdin=subprocess.DEVNULL)


def start() -> int:
    """Do what the options say, and return the status."""
    options, others = read_options()
    if options.script or options.no_live:
        program = provide_program()
        if options.script:
            return run_script(program, options.script)
        show_rows(program)
        return 0
    provide_packages(others)
    serve_words = serve_options(options, others)
    program = provide_program()
    show_rows(program)
    return serve(program, serve_words)


def main() -> int:
    try:
        return start()
    except Problem as fault:
        print(f"./start: {fault}", file=sys.stderr)
        return 1


if __name__ == "__main__":
    sys.exit(main())
