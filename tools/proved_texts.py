"""The source texts that were proved: .ci/proved, and the checksum with which it names a text.

.ci/proved has a line for the kit, and a line "NAME SUM" for each program whose source text was proved with this kit. A program
that is made from such a text needs no run-time checks. SUM covers the names of the program's crates with their lines of crates.txt,
and the names and the text of their files. Comments, and how much white space stands between two tokens, do not count; in a
definition or a proof (.antt), where layout has a meaning, the column of a line's first token counts.
"""
from __future__ import annotations

import functools
import hashlib
import re
from dataclasses import dataclass
from pathlib import Path

from built_programs import PROGRAMS, TOP, programs

PROVED_TEXTS = TOP / ".ci" / "proved"


@dataclass(frozen=True)
class Syntax:
    """The comments of a language (those from `begin` to `end` may contain others) and its tokens. `has_layout`: the column of a line's
    first token has a meaning."""

    line: str
    begin: str
    end: str
    token: re.Pattern[str]
    has_layout: bool


# A raw string, a string or a character with its prefix; a lifetime; a word or a name with primes, as clauses have; any other character.
RUST = Syntax("//", "/*", "*/", re.compile(
    r"""[bc]?r(?P<hashes>\#*)".*?"(?P=hashes) | [bc]?"(?:[^"\\]|\\.)*" | b?'(?:[^'\\\n]|\\x[0-9a-fA-F]{2}|\\u\{[^}]*\}|\\.)' | '\w+
    | \w+'* | .""", re.S | re.X), False)
# A string, which ends on its line; a name, which may contain `--` but not begin with it; any other character.
ANTT = Syntax("--", "{-", "-}", re.compile(r"""\"(?:[^"\\\n]|\\.)*\" | [^\s(){}.;,@"«»]+ | .""", re.S | re.X), True)
SYNTAXES = {".rt": RUST, ".antt": ANTT}
WHITE = re.compile(r"\s+")


def find_end_of_comment(text: str, at: int, syntax: Syntax) -> int:
    """Return where the comment that begins at `at` ends, or `at` if none begins there."""
    if text.startswith(syntax.line, at):
        end = text.find("\n", at)
        return len(text) if end < 0 else end
    if not text.startswith(syntax.begin, at):
        return at
    mark, open_comments = re.compile(f"{re.escape(syntax.begin)}|{re.escape(syntax.end)}"), 0
    for found in mark.finditer(text, at):
        open_comments += 1 if found[0] == syntax.begin else -1
        if not open_comments:
            return found.end()
    return len(text)


def find_end_of_gap(text: str, at: int, syntax: Syntax) -> int:
    """Return where the white space and comments that begin at `at` end."""
    while True:
        white = WHITE.match(text, at)
        end = find_end_of_comment(text, white.end() if white else at, syntax)
        if end == at:
            return at
        at = end


def reduce_text(text: str, syntax: Syntax) -> str:
    """Return a text without comments: each run of white space and comments is one space, or a new line with its column if the language
    has layout."""
    parts, at = [], find_end_of_gap(text, 0, syntax)
    while at < len(text):
        token = syntax.token.match(text, at)
        assert token is not None
        end = find_end_of_gap(text, token.end(), syntax)
        starts_line = syntax.has_layout and "\n" in text[token.end():end]
        column = end - text.rfind("\n", 0, end) - 1
        parts += [token[0], "\n" + " " * column if starts_line else " " if end > token.end() else ""]
        at = end
    return "".join(parts).rstrip()


@functools.cache
def sum_data(data: bytes, ending: str) -> str:
    """Return the SHA-256 of a file of a crate, by its ending; of a source file, without comments."""
    syntax = SYNTAXES.get(ending)
    return hashlib.sha256(reduce_text(data.decode("utf-8"), syntax).encode() if syntax else data).hexdigest()


def read_crates() -> dict[str, str]:
    """Return each crate's line of crates.txt, by the crate's name."""
    lines = (TOP / "crates.txt").read_text(encoding="utf-8").splitlines()
    return {line.split(":")[0].split()[0]: " ".join(line.split()) for line in lines if ":" in line and not line.startswith("#")}


def sum_without_comments(program: str) -> str:
    """Return the SHA-256 of a program's source text without comments."""
    total, lines = hashlib.sha256(), read_crates()
    for crate in programs.list_crates(program):
        total.update(f"{lines[crate]}\n".encode())
        for path in programs.list_files(crate):
            total.update(f"{path.relative_to(programs.CRATES)} {sum_data(path.read_bytes(), path.suffix)}\n".encode())
    return total.hexdigest()


def read_proved() -> tuple[str, dict[str, str]]:
    """Return the kit of .ci/proved, and the sum of each program that it names. Both are empty if there is no such file."""
    if not PROVED_TEXTS.is_file():
        return "", {}
    kit, *lines = PROVED_TEXTS.read_text(encoding="utf-8").splitlines()
    return kit, dict(line.split() for line in lines)


def is_proved(program: str, kit: str) -> bool:
    """Return whether .ci/proved says that the present text of a program was proved with this kit."""
    proved_with, sums = read_proved()
    return proved_with == kit and sums.get(program) == sum_without_comments(program)


def note_proved(proved: tuple[str, ...], kit: str) -> None:
    """Write into .ci/proved that the present texts of these programs were proved with this kit. The line of another program stays if it
    names the present text."""
    named = [program for program in PROGRAMS if program in proved or is_proved(program, kit)]
    PROVED_TEXTS.write_text("".join(f"{line}\n" for line in (kit, *(f"{name} {sum_without_comments(name)}" for name in named))), encoding="utf-8")
