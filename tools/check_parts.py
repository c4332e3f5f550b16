"""The parts of ./check: what each runs, its programs, and how many processors it takes."""
from __future__ import annotations

import os
import subprocess
from dataclasses import dataclass, replace
from pathlib import Path
from typing import Iterable, Sequence

import packages
from built_programs import CALLS, LABORATORY, PROGRAMS, WITHIN, current_path, kit_name, proved_path, unproved_path
from proved_texts import is_proved

FIRST, GATE = "pages", "proof"  # FIRST takes seconds: if it fails, the proof, which takes long, does not begin
NO_KIT = "there is no `rt` on the PATH: add the bin folder of the Rattle kit"
MOST = 64  # processors: stands for all processors of the machine
MINUTES_OF_MUTANTS = 10


@dataclass(frozen=True)
class Part:
    """A part: bash lines, which run in turn at the top of the repository. They name programs by variables such as $road_lab.

    `before` are the parts that must have passed before this one starts. `left_out` says why the part cannot run, if it cannot.
    `without_checks`: it needs programs without the compiler's checks. `is_shown`: its output is printed while it runs.
    """

    name: str
    what: str
    lines: tuple[str, ...]
    programs: tuple[str, ...] = ()
    processors: int = 1
    before: tuple[str, ...] = ()
    left_out: str = ""
    only_proved: bool = False
    is_shown: bool = False
    needs_kit: bool = False
    without_checks: bool = False
    environment: tuple[tuple[str, str], ...] = ()


def all_parts() -> list[Part]:
    """Return the parts in the order in which they start: the quick check of pages, then those that take longest."""
    return [
        Part(FIRST, "the pages: limits, links, the index of specs/, and plain English; imports by layers",
             ("tools/definitions --check", "tools/check-pages", "tools/check-imports")),
        Part("live", "live, with real browsers, brokers and faults", ("ROAD_LAB=$road_lab live/test",), (LABORATORY,), 4),
        Part("failures", "each call of the programs to the system, made to fail in turn",
             ("tools/fail-in-turn --program $road_lab --within $tests_within --calls $tests_failures --jobs $processors",),
             (LABORATORY, WITHIN, CALLS), 3, without_checks=True),
        Part("unproved", "the program without a proof, with and without checks", ("tests/unproved",), processors=2, needs_kit=True),
        Part("process", "the program as a process: arguments, streams, limits", ("tests/process --program $road_lab",), (LABORATORY,)),
        Part("recipes", "the recipes, compared with results of other programs", ("ROAD_LAB=$road_lab recipes/test",), (LABORATORY,)),
        Part("types", "the types of the Python package, and of live's server and tests", ("python/types", "live/types")),
        Part("viewer", "the viewer, in a real browser", ("viewer/test",), processors=2),
        Part("refused-uses", "programs that must not compile", (".ci/refused-uses",), needs_kit=True),
        Part("lost-worker", "the loss of a worker is detected", (".ci/lost-worker",), needs_kit=True),
        Part("scripts", "the scripts of examples/ and tests/scripts", ("tests/run --program $road_lab",), (LABORATORY,)),
        Part("node", "live's page: modules that need no browser, and the types of all modules",
             ("node --test live/tests/*.test.mjs", "tsc -p live/page")),
        Part("commands", "./start, ./check, the choice of due mutants, and the checks of plain English and imports",
             ("ROAD_LAB=$road_lab tests/commands", "tests/mutants", "tests/plain_english", "tests/imports"), (LABORATORY,)),
        Part("mutants", "mutants that are due, for ten minutes (under --proof)",
             (f"tools/try-mutants --due --minutes {MINUTES_OF_MUTANTS}",), processors=MOST, only_proved=True),
    ]


def choose(names: Sequence[str], proof: bool) -> list[Part]:
    """Return the parts with these names, or all parts if there are no names: without a proof, only those that need none."""
    return [part for part in all_parts() if part.name in names or not names and (proof or not part.only_proved)]


def with_programs(parts: Iterable[Part], proof: bool) -> list[Part]:
    """Return the parts, after new ones that make their programs: the proof, or a compilation of each missing program. If a package is
    missing, nothing is proved."""
    installed = [without_packages(part, proof) for part in parts]
    if proof:
        return [part for part in installed if part.left_out] or with_proof(installed)
    kit = find_kit()
    runnable = [without_kit(part, kit) for part in installed]
    wanted = {name for part in runnable if not part.left_out for name in part.programs}
    found = {name: find_program(name, kit) for name in PROGRAMS if name in wanted}
    makers = [make(name, kit) for name, path in found.items() if path is None]
    paths = {name: path or unproved_path(name) for name, path in found.items()}
    return [*makers, *(by_programs(part, paths, before(part, makers)) for part in runnable)]


def with_proof(parts: Sequence[Part]) -> list[Part]:
    """Return the check of pages, the proof, and then the other parts, with the proved programs."""
    first, others = [part for part in parts if part.name == FIRST], [part for part in parts if part.name != FIRST]
    proved = {name: proved_path(name) for name in PROGRAMS}
    return [*first, gate(tuple(part.name for part in first)), *(by_programs(part, proved, (GATE,)) for part in others)]


def without_packages(part: Part, proof: bool) -> Part:
    """Leave a part out if a package that it needs is missing. (Without a proof, `recipes` itself leaves out only what needs it.)"""
    missing = packages.find_missing([part.name])
    return replace(part, left_out=f"not installed: {' '.join(missing)}") if missing and (proof or part.name != "recipes") else part


def without_kit(part: Part, kit: str | None) -> Part:
    """Leave a part out if it needs the kit and there is none, or if it needs programs without checks that cannot be made."""
    if part.left_out:
        return part
    if kit is None and part.needs_kit:
        return replace(part, left_out=NO_KIT)
    for name in part.programs if part.without_checks else ():
        if current_path(name, with_checks=False) is None and not (kit and is_proved(name, kit)):
            return replace(part, left_out=f"{name} is not proved, and .ci/proved does not name its present text: so it can only "
                           "be made with the compiler's checks, and then no call can be made to fail")
    return part


def find_kit() -> str | None:
    """Return the line that names the kit, or None if there is no kit."""
    try:
        return kit_name()
    except (OSError, subprocess.CalledProcessError):
        return None


def find_program(name: str, kit: str | None) -> Path | None:
    """Return a program of the present text, or None if it has to be made. A program with checks is made again once its text
    has been proved."""
    given = os.environ.get("ROAD_LAB") if name == LABORATORY else None
    if given:
        return Path(given).absolute()
    return current_path(name, with_checks=not (kit and is_proved(name, kit)))


def gate(before: tuple[str, ...]) -> Part:
    """Find edits that do not fit the code, prove everything, and record which texts were proved."""
    return Part(GATE, "", ("tools/try-mutants --read", "text=$(tools/prove-program --text)", "rt ci", "tools/prove-program --record $text"),
                processors=MOST, before=before, is_shown=True)


def make(name: str, kit: str | None) -> Part:
    """Make a program without a proof."""
    return Part(maker_name(name), "", (f"tools/try-program {name}",), left_out="" if kit else NO_KIT)


def maker_name(program: str) -> str:
    return f"make {program}"


def before(part: Part, makers: Sequence[Part]) -> tuple[str, ...]:
    """Return the makers of a part's programs, which must have passed before the part starts. `unproved` names no program, but looks
    at the laboratory's folder."""
    names = (*part.programs, LABORATORY) if part.name == "unproved" else part.programs
    return tuple(maker.name for maker in makers if maker.name in map(maker_name, names))


def by_programs(part: Part, paths: dict[str, Path], before: tuple[str, ...]) -> Part:
    """Give a part the paths of its programs, and the parts to wait for."""
    return replace(part, environment=tuple((name, str(paths[name])) for name in part.programs if name in paths), before=before)
