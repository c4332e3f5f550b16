"""Find phrases and first words that nobody would say aloud, with the lists in plain_english.toml."""
from __future__ import annotations

import ast
import io
import re
import tokenize
import tomllib
from dataclasses import dataclass
from html.parser import HTMLParser
from pathlib import Path
from typing import Iterable, Iterator, NamedTuple

LISTS = Path(__file__).resolve().with_name("plain_english.toml")
SLASHED = (".js", ".mjs", ".rt", ".c", ".rs")
INLINE = ("a", "b", "em", "i", "kbd", "span", "strong")
READ_ATTRIBUTES = ("alt", "aria-label", "aria-description", "placeholder", "title", "content")
LEAST_WORDS = 3
"""A string with fewer words is a name or a value, and not a message."""


class Text(NamedTuple):
    """A piece of prose in a file, with the line where it begins. `owner` is "function", "test", "class" or "module" for a docstring."""

    line: int
    text: str
    owner: str | None = None


@dataclass(frozen=True)
class Phrase:
    """A refused pattern, the reason, a sentence that it refuses, and one that it allows."""

    pattern: re.Pattern[str]
    reason: str
    refuses: str
    allows: str


@dataclass(frozen=True)
class Lists:
    """The content of plain_english.toml."""

    phrases: list[Phrase]
    function_words: dict[str, str]
    """Refused first words of docstrings of functions, with the reason."""
    all_words: dict[str, str]
    """Refused first words of all docstrings, with the reason."""
    fixed: list[str]
    """Prescribed sentences."""
    unchecked: list[str]
    """Paths of files that are not checked."""


def read_lists(path: Path = LISTS) -> Lists:
    """Read the lists. KeyError: a field of an entry is missing."""
    given = tomllib.loads(path.read_text(encoding="utf-8"))
    words: dict[str, dict[str, str]] = {"functions": {}, "all": {}}
    for entry in given["first_word"]:
        words[entry["of"]].update(dict.fromkeys(entry["words"], entry["reason"]))
    phrases = [Phrase(re.compile(entry["pattern"], re.I), entry["reason"], entry["refuses"], entry["allows"]) for entry in given["phrase"]]
    vocabulary = given["vocabulary"]
    return Lists(phrases, words["functions"], words["all"], vocabulary["fixed"], vocabulary["unchecked"])


# The prose of a file

def find_texts(name: str, source: str) -> Iterator[Text]:
    """Yield the prose of a file: a page, the comments and messages of a program, or the comments of a shell script."""
    first = source.split("\n", 1)[0]
    if name.endswith(".md"):
        yield from find_paragraphs(source)
    elif name.endswith(".py") or first.startswith("#!") and "python" in first:
        yield from find_python_texts(source)
    elif name.endswith(SLASHED):
        yield from find_slashed_texts(source)
    elif name.endswith(".antt"):
        yield from join_comments(enumerate(source.split("\n"), 1), r"\s*--+ ?(.*)")
    elif name.endswith(".html"):
        yield from find_page_texts(source)
    elif name.endswith(".css"):
        return
    elif first.startswith("#!"):
        yield from join_comments(list(enumerate(source.split("\n"), 1))[1:], r"\s*# ?(.*)")


def find_paragraphs(source: str) -> Iterator[Text]:
    """Yield the paragraphs of a page without its code."""
    without_code = re.sub(r"(`+)(.+?)\1", "`code`", source, flags=re.S) if "```" not in source else source
    lines, begin, is_fenced = list[str](), 1, False
    for number, line in enumerate([*without_code.split("\n"), ""], 1):
        is_fence = line.lstrip().startswith("```")
        is_code = is_fenced or is_fence or line.startswith("    ") and not lines
        is_fenced ^= is_fence
        if is_code or not line.strip():
            if lines:
                yield Text(begin, join_lines(re.sub(r"(`+)(.+?)\1", "`code`", line) for line in lines))
            lines = []
            continue
        if not lines:
            begin = number
        lines.append(line)


def join_lines(lines: Iterable[str]) -> str:
    """Join lines with single spaces."""
    return " ".join(" ".join(lines).split())


def join_comments(lines: Iterable[tuple[int, str]], form: str) -> Iterator[Text]:
    """Yield neighbouring comment lines as one text each. The first group of `form` is a line's text."""
    texts, begin = list[str](), 0
    for number, line in [*lines, (0, "")]:
        match = re.fullmatch(form, line)
        if match and match[1].strip():
            begin = begin if texts else number
            texts.append(match[1])
        elif texts:
            yield Text(begin, join_lines(texts))
            texts = []


def find_python_texts(source: str) -> Iterator[Text]:
    """Yield the comments, docstrings and messages of a Python program."""
    tree = ast.parse(source)
    docstrings = set()
    for node in ast.walk(tree):
        if isinstance(node, (ast.Module, ast.ClassDef, ast.FunctionDef, ast.AsyncFunctionDef)):
            text = ast.get_docstring(node)
            if text is not None:
                value = node.body[0].value  # type: ignore[attr-defined]
                docstrings.add(value)
                yield from with_code_removed(value.lineno, text, name_owner(node))
    inner = {part for node in ast.walk(tree) if isinstance(node, ast.JoinedStr) for part in ast.walk(node) if part is not node}
    for node in ast.walk(tree):
        if isinstance(node, ast.JoinedStr):
            parts = ["".join(part.value if isinstance(part, ast.Constant) else "{}" for part in node.values)]
        elif isinstance(node, ast.Constant) and isinstance(node.value, str) and node not in docstrings and node not in inner:
            parts = [node.value]
        else:
            continue
        for text in parts:
            if len(text.split()) >= LEAST_WORDS:
                yield Text(node.lineno, join_lines([text]))
    comments = ((token.start[0], token.string) for token in tokenize.generate_tokens(io.StringIO(source).readline)
                if token.type == tokenize.COMMENT and not token.string.startswith("#!"))
    yield from join_neighbours(comments)


def name_owner(node: ast.AST) -> str:
    """Return the kind of thing that has a docstring."""
    if isinstance(node, (ast.FunctionDef, ast.AsyncFunctionDef)):
        return "test" if node.name.startswith("test_") else "function"
    return "class" if isinstance(node, ast.ClassDef) else "module"


def with_code_removed(line: int, docstring: str, owner: str) -> Iterator[Text]:
    """Yield the paragraphs of a docstring; the first one has the owner. Indented lines are code, but what follows two spaces there
    describes it."""
    for index, text in enumerate(find_paragraphs(docstring)):
        yield Text(line + text.line - 1, text.text, owner if index == 0 else None)
    for number, words in enumerate(docstring.split("\n"), line):
        described = re.fullmatch(r" {4,}(?:\S+ )*\S+ {2,}(\S.*)", words)
        if described:
            yield Text(number, described[1])


def join_neighbours(comments: Iterable[tuple[int, str]]) -> Iterator[Text]:
    """Yield comments on neighbouring lines as one text each."""
    texts, begin, last = list[str](), 0, -1
    for number, text in comments:
        if texts and number != last + 1:
            yield Text(begin, join_lines(texts))
            texts = []
        begin = begin if texts else number
        texts.append(text.lstrip("# "))
        last = number
    if texts:
        yield Text(begin, join_lines(texts))


def find_slashed_texts(source: str) -> Iterator[Text]:
    """Yield the comments and messages of a program in JavaScript, Rattle, Rust or C."""
    lines = source.split("\n")
    yield from join_comments(enumerate(lines, 1), r"\s*(?://[/!]?|\*|/\*+) ?(.*)")
    for number, line in enumerate(lines, 1):
        code = re.sub(r"^\s*(//|\*|/\*).*", "", line)
        for match in re.finditer(r'"((?:[^"\\]|\\.)*)"|\'((?:[^\'\\]|\\.)*)\'|`((?:[^`\\]|\\.)*)`', code):
            text = next(part for part in match.groups() if part is not None) if any(match.groups()) else ""
            if len(text.split()) >= LEAST_WORDS:
                yield Text(number, text)
        behind = re.search(r"\S.*?\s//+ ?(.*)", code)
        if behind:
            yield Text(number, behind[1])


class PageTexts(HTMLParser):
    """Collects the texts of a page of HTML: what is between tags, and the attributes that users read or hear."""

    def __init__(self, source: str) -> None:
        super().__init__()
        self.found, self._between = list[Text](), list[Text]()
        self._is_code = False
        self.feed(source)
        self.close()
        self._end()

    def handle_starttag(self, tag: str, attributes: list[tuple[str, str | None]]) -> None:
        if tag not in INLINE:
            self._end()
        self._is_code = tag in ("script", "style")
        self.found += [Text(self.getpos()[0], join_lines([value])) for name, value in attributes if name in READ_ATTRIBUTES and value]

    def handle_endtag(self, tag: str) -> None:
        if tag not in INLINE:
            self._end()
        self._is_code = False

    def handle_data(self, data: str) -> None:
        if not self._is_code and data.strip():
            self._between.append(Text(self.getpos()[0] + data[:-len(data.lstrip())].count("\n"), data))

    def _end(self) -> None:
        """End a text, which may have inline elements in it."""
        if self._between:
            self.found.append(Text(self._between[0].line, join_lines(text.text for text in self._between)))
            self._between = []


def find_page_texts(source: str) -> Iterator[Text]:
    """Yield the texts of a page of HTML."""
    yield from PageTexts(source).found


# Faults

def find_faults(name: str, source: str, lists: Lists) -> Iterator[tuple[int, str]]:
    """Yield the line and the fault of each refused phrase and first word of a file."""
    for line, text, owner in find_texts(name, source):
        plain = text
        for sentence in lists.fixed:
            plain = plain.replace(sentence, "")
        for phrase in lists.phrases:
            for match in phrase.pattern.finditer(plain):
                yield line, f'"{match[0]}": {phrase.reason}'
        word = re.match(r"\W*([A-Za-z]+)", text)
        reason = None
        if owner is not None and word:
            reason = lists.all_words.get(word[1]) or (lists.function_words.get(word[1]) if owner == "function" else None)
        if reason and word:
            yield line, f'a docstring begins with "{word[1]}": {reason}'
