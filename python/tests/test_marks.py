"""Test that the mark of a sweep covers whatever decides its figures, and nothing else."""
from __future__ import annotations

import dis
import functools
import os
import subprocess
import sys
import tempfile
import threading
import unittest
from pathlib import Path
from typing import Any, Callable
from unittest import mock

from test_page import TOP
from zegdrut.program.programs import Made, describe_program, write_record
from zegdrut.sweeps import Flows, OtherMark, Unknown, make_mark, marks, sweep

SCRIPT = '''
import functools, math, re, sys
from dataclasses import dataclass
from pathlib import Path
import helpers
from helpers import third
from zegdrut.sweeps import Flows, make_mark, sweep

LIMIT = 5
NAMES = {"b", "a", "c"}
PATTERN = re.compile("x+")
HERE = Path(__file__).resolve().parent

def twice(x):
    return 2 * x

class Driver:
    patience = 3
    def __init__(self, speed):
        self.speed = speed
    def drive(self, x):
        return self.speed * x + self.patience

@dataclass(frozen=True)
class Settings:
    gain: int = 4

def make_scaled(factor):
    def scaled(x):
        return factor * x
    return scaled

def count_calls(function):
    @functools.wraps(function)
    def counted(*given, **named):
        return function(*given, **named)
    return counted

class Repeated:
    """A function that runs several times, as an object that wraps it."""
    def __init__(self, function, times):
        functools.update_wrapper(self, function)
        self.function, self.times = function, times
    def __call__(self, x):
        return sum(self.function(x) for _ in range(self.times))

def thrice(x):
    return 3 * x

SCALED = make_scaled(6)
REPEATED = Repeated(thrice, 13)
STORED = functools.lru_cache(maxsize=14)(lambda x: 15 * x)
DRIVER = Driver(7)
SETTINGS = Settings()
SHIFT = functools.partial(pow, 2)

@count_calls
def road(x, seed, add=8, *, more=9):
    """Return a figure."""
    import late
    try:
        y = [twice(one) for one in (x, LIMIT)]
    except ZeroDivisionError:
        y = []
    name = x in NAMES or "z" in {"q", "r", "s"}
    return {"y": sum(y) + DRIVER.drive(x) + SCALED(x) + helpers.half(x) + third(x) + late.CONSTANT + math.floor(x) + SETTINGS.gain
            + SHIFT(3) + add + more + bool(PATTERN) + name + REPEATED(x) + STORED(x), "here": 0 * len(str(HERE))}

def measured(x):
    return None

if __name__ == "__main__":
    print(make_mark(road, None).text, make_mark(measured, Flows(10, 20)).text)
    if sys.argv[1:]:
        sweep(road, {"x": [1]}, out=sys.argv[1])
'''
HELPERS = "STEP = 10\ndef half(x):\n    return x / 2 + STEP\ndef third(x):\n    return x / 3\ndef unused(x):\n    return x\n"
LATE = "CONSTANT = 11\n"


class Scripts(unittest.TestCase):
    def setUp(self) -> None:
        self.folder = Path(self.enterContext(tempfile.TemporaryDirectory()))

    def run_script(self, name: str, *words: str, **changes: tuple[str, str]) -> subprocess.CompletedProcess[str]:
        """Run the script in the folder `name`, after changes of a text in one of its files."""
        folder = self.folder / name
        folder.mkdir(exist_ok=True)
        for file, text in (("script", SCRIPT), ("helpers", HELPERS), ("late", LATE)):
            old, new = changes.get(file, ("", ""))
            self.assertIn(old, text)
            (folder / f"{file}.py").write_text(text.replace(old, new) if old else text, encoding="utf-8")
        return subprocess.run([sys.executable, "script.py", *words], cwd=folder, capture_output=True, text=True, check=False,
                              env={**os.environ, "PYTHONPATH": str(TOP), "PYTHONDONTWRITEBYTECODE": "1"})

    def marks(self, name: str, **changes: tuple[str, str]) -> list[str]:
        ran = self.run_script(name, **changes)
        self.assertEqual(ran.returncode, 0, ran.stderr)
        return ran.stdout.split()

    def test_what_changes_no_figure(self) -> None:
        """Run the same script in another folder, with other lines, comments, docstrings, unused code, and with a bytecode file."""
        whole = self.marks("one")
        self.assertRegex(whole[0], "^road-[0-9a-f]{12}$")
        self.assertEqual(self.marks("one"), whole)
        self.assertEqual(self.marks("another folder"), whole)
        for change in (("\nLIMIT = 5\n", "\n# A comment.\n\n\nLIMIT = 5  # cells\n"), ('"""Return a figure."""', '"""Return another one."""'),
                       ("        y = []\n", "        # nothing\n        y = []  # nothing\n"),
                       ("sum(y) + DRIVER", "(sum(y)  # all\n            ) + DRIVER"), ("def measured", "def unused():\n    pass\n\ndef measured")):
            self.assertEqual(self.marks("two", script=change), whole, change)
        self.assertEqual(self.marks("three", helpers=("return x\n", "return x + 1\n")), whole)
        ran = subprocess.run([sys.executable, "-c", "import script\nprint(script.make_mark(script.road, None).text)"], cwd=self.folder / "one",
                             capture_output=True, text=True, check=True, env={**os.environ, "PYTHONPATH": str(TOP), "PYTHONHASHSEED": "5"})
        self.assertEqual(ran.stdout.strip(), whole[0])

    def test_what_changes_a_figure(self) -> None:
        """Change constants, closures, globals, helper functions, defaults, partial arguments, methods, decorators and imported modules."""
        whole = self.marks("one")
        seen = {whole[0]}
        for file, old, new in (
                ("script", "LIMIT = 5", "LIMIT = 6"), ("script", "2 * x", "3 * x"), ("script", "patience = 3", "patience = 4"),
                ("script", "* x + self.patience", "* x - self.patience"), ("script", "gain: int = 4", "gain: int = 5"),
                ("script", "make_scaled(6)", "make_scaled(7)"), ("script", "factor * x", "factor / x"), ("script", "Driver(7)", "Driver(8)"),
                ("script", "partial(pow, 2)", "partial(pow, 3)"), ("script", "add=8", "add=7"), ("script", "more=9", "more=8"),
                ("script", '"a", "c"}', '"a", "d"}'), ("script", '"r", "s"}', '"r", "t"}'), ("script", '"x+"', '"x*"'),
                ("script", "return function(*given, **named)", "return dict(function(*given, **named))"),
                ("script", "3 * x", "4 * x"), ("script", "(thrice, 13)", "(thrice, 12)"),
                ("script", "sum(self.function", "max(self.function"), ("script", "15 * x", "16 * x"),
                ("script", "math.floor", "math.ceil"), ("script", "ZeroDivisionError", "ValueError"),
                ("helpers", "STEP = 10", "STEP = 11"), ("helpers", "x / 2", "x / 4"), ("helpers", "x / 3", "x / 5"),
                ("late", "CONSTANT = 11", "CONSTANT = 12")):
            with self.subTest(change=new):
                mark = self.marks("two", **{file: (old, new)})[0]
                self.assertNotIn(mark, seen)
                seen.add(mark)
        self.assertNotEqual(self.marks("two", script=("Flows(10, 20)", "Flows(10, 21)"))[1], whole[1])

    def test_a_table_is_continued_by_the_same_script_alone(self) -> None:
        self.assertEqual(self.run_script("one", "out.csv").returncode, 0)
        whole = (self.folder / "one" / "out.csv").read_bytes()
        self.assertEqual(self.run_script("one", "out.csv", script=("LIMIT = 5", "LIMIT = 5  # cells")).returncode, 0)
        ran = self.run_script("one", "out.csv", script=("LIMIT = 5", "LIMIT = 4"))
        self.assertRegex(ran.stderr.splitlines()[-1], "OtherMark: out.csv has results of road-[0-9a-f]{12}, but the model is now road-")
        self.assertEqual((self.folder / "one" / "out.csv").read_bytes(), whole)


class Marks(unittest.TestCase):
    def setUp(self) -> None:
        self.folder = Path(self.enterContext(tempfile.TemporaryDirectory()))
        self.out = self.folder / "out.csv"

    def test_what_cannot_be_known(self) -> None:
        """Refuse a table for a model with an object that has no state to describe; `version` stands for it."""
        lock = threading.Lock()

        def model(x: int, seed: int) -> dict[str, int]:
            with lock:
                return {"y": x}
        with self.assertRaisesRegex(Unknown, "the model has an object of the class lock, which cannot be recognised in a later run, so the "
                                             "table could not be continued: give version=\"1\""):
            sweep(model, {"x": [1]}, out=self.out)
        self.assertEqual(list(self.folder.iterdir()), [])
        self.assertEqual(sweep(model, {"x": [1]}).rows[0]["model"], "model-unknown")
        self.assertRegex(sweep(model, {"x": [1]}, out=self.out, version="3").rows[0]["model"], "^model@3-[0-9a-f]{12}$")
        self.assertEqual(len(sweep(model, {"x": [1, 2]}, out=self.out, version="3").rows), 2)
        with self.assertRaisesRegex(OtherMark, "has results of model@3-.*, but the model is now model@4-"):
            sweep(model, {"x": [1]}, out=self.out, version="4")

    def test_the_python(self) -> None:
        """The name and the version of Python count; with `version` they do not."""
        def model() -> None:
            pass
        marks = [make_mark(model, None, python=python) for python in ("CPython 3.11.2", "CPython 3.11.7", "PyPy 3.11.2")]
        self.assertEqual(len({mark.text for mark in marks}), 3)
        self.assertEqual(marks[0].changes(marks[1].parts), ["Python"])
        self.assertRegex(make_mark(model, None).parts["Python"], r"^CPython 3\.\d+\.\d+")
        self.assertEqual(*(make_mark(model, None, "1", python=python).text for python in ("CPython 3.11.2", "CPython 3.11.7")))

    def test_a_function_that_was_typed(self) -> None:
        """Type functions without a file: each is known by its instructions."""
        def typed(text: str) -> Callable[..., Any]:
            names: dict[str, Any] = {"__name__": "__main__"}
            exec(text, names)  # pylint: disable=exec-used
            found: Callable[..., Any] = names["road"]
            return found
        one, same, other = (typed(f"A = {a}\ndef road(x, seed):\n    return {{'y': x * A}}\n") for a in (1, 1, 2))
        self.assertEqual(make_mark(one, None), make_mark(same, None))
        self.assertEqual(make_mark(one, None).changes(make_mark(other, None).parts), ["__main__.A"])

    def test_values_that_refer_to_themselves(self) -> None:
        ring: list[Any] = [1]
        ring.append(ring)
        first = make_mark(lambda: ring, None).text
        ring[0] = 2
        self.assertNotEqual(make_mark(lambda: ring, None).text, first)

    def test_keywords_of_a_partial(self) -> None:
        """The arguments by place and by name that a partial adds count, and those of the function itself."""
        def model(x: int, seed: int, gain: int = 1, shift: int = 2) -> dict[str, int]:
            return {"y": x * gain + shift}
        bound = [functools.partial(model), functools.partial(model, gain=3), functools.partial(model, gain=4), functools.partial(model, shift=3),
                 functools.partial(model, 3), functools.partial(model, 4), functools.partial(functools.partial(model, gain=3), shift=3)]
        self.assertEqual(len({make_mark(one, None).text for one in bound}), len(bound))
        self.assertEqual(make_mark(functools.partial(model, gain=3), None), make_mark(bound[1], None))

    def test_what_a_try_covers(self) -> None:
        """Two functions with the same instructions differ if the handler of one covers more of them."""
        def narrow(x: int) -> int:
            y = int(x)
            try:
                z = abs(x)
            except ValueError:
                return 0
            return y + z

        def wide(x: int) -> int:
            try:
                y = int(x)
                z = abs(x)
            except ValueError:
                return 0
            return y + z
        wide.__name__ = wide.__qualname__ = narrow.__name__
        wide.__code__ = wide.__code__.replace(co_name=narrow.__code__.co_name, co_qualname=narrow.__code__.co_qualname)
        if not hasattr(narrow.__code__, "co_exceptiontable"):
            self.skipTest("this Python has its handlers among the instructions")

        def list_instructions(function: Callable[..., Any]) -> list[tuple[str, object]]:
            return [(step.opname, step.argval) for step in dis.get_instructions(function) if step.opname not in ("NOP", "EXTENDED_ARG", "CACHE")]
        self.assertEqual(*(list_instructions(one) for one in (narrow, wide)))
        self.assertNotEqual(make_mark(narrow, None).parts["the model"], make_mark(wide, None).parts["the model"])

    def test_the_text_of_the_package(self) -> None:
        """Each file of the package counts, with its name and in whatever folder it is. Files that are not Python do not."""
        def total() -> str:
            return marks.sum_package.__wrapped__()
        folder = self.folder / "package"
        (folder / "room" / "closet").mkdir(parents=True)
        with mock.patch.object(marks, "PACKAGE", folder):
            seen = [total()]
            for name, text in (("__init__.py", "A = 1\n"), ("__init__.py", "A = 2\n"), ("room/a.py", "A = 1\n"), ("room/a.py", "A = 2\n"),
                               ("room/closet/b.py", "B = 1\n"), ("room/closet/b.py", "B = 3\n"), ("room/b.py", "")):
                (folder / name).write_text(text, encoding="utf-8")
                seen.append(total())
            self.assertEqual(len(set(seen)), len(seen))
            (folder / "room" / "py.typed").write_text("more", encoding="utf-8")
            self.assertEqual(total(), seen[-1])

    def test_the_measurement_and_the_program(self) -> None:
        """The source text of the program, its kit and its proof count; its path does not."""
        def model() -> None:
            pass
        one, other = self.folder / "one", self.folder / "other"
        for path in (one, other):
            path.write_bytes(b"program")
        marks = [make_mark(model, measure, None, one).text for measure in (None, Flows(1, 2), Flows(1, 3), Flows(1, 2, (0, 5)))]
        self.assertEqual(len(set(marks)), 4)
        self.assertEqual(make_mark(model, None, None, other).text, marks[0])
        for given in (("text", True, False, "kit 1"), ("text", True, False, "kit 2"), ("text", False, False, "kit 2"), ("texts", False, False, "kit 2")):
            write_record(one, *given)
            self.assertIsInstance(describe_program(one), str)
            marks.append(make_mark(model, None, None, one).text)
            self.assertEqual(make_mark(model, None, "1", one).changes(make_mark(model, None, "1", other).parts), ["the program"])
        self.assertEqual(len(set(marks)), 8)
        self.assertEqual(make_mark(model, None, None, self.folder / "nowhere").parts["the program"], "none")
        self.assertEqual(Made("a", "b", True, False).kit, None)

    def test_taking_a_part_of_another_model(self) -> None:
        """Take parts by the command: one of another model is refused with status 1, and nothing is written."""
        text = "LIMIT = {}\ndef model(x, seed):\n    return {{'y': x * LIMIT}}\n"
        for name, limit in (("right", 2), ("wrong", 3)):
            (self.folder / f"{name}.py").write_text(text.format(limit), encoding="utf-8")
            (self.folder / name).mkdir()
            (self.folder / name / "model.py").write_text(text.format(limit), encoding="utf-8")
        words = [sys.executable, "-m", "zegdrut", "sweep", "model.py:model", "--grid", "x=1,2,3"]
        environment = {**os.environ, "PYTHONPATH": str(TOP)}

        def run(folder: str, *more: str) -> subprocess.CompletedProcess[str]:
            return subprocess.run([*words, *more], cwd=self.folder / folder, env=environment, capture_output=True, text=True, check=False)
        for folder, number in (("right", 1), ("wrong", 2), ("right", 3)):
            ran = run(folder, "--part", f"{number}/3", "--out", f"../part-{number}.csv")
            self.assertEqual(ran.returncode, 0, ran.stderr)
        for out, before in (("out.csv", None), ("../part-1.csv", (self.folder / "part-1.csv").read_bytes())):
            ran = run("right", "--out", out, "--take", "../part-3.csv", "../part-2.csv")
            self.assertRegex(ran.stderr.splitlines()[-1], "^../part-2.csv has results of model-[0-9a-f]{12}, but the model is now model-[0-9a-f]{12}; changed: "
                                         "model.LIMIT: name a different file")
            self.assertEqual(ran.returncode, 1)
            path = self.folder / "right" / out
            self.assertEqual(path.read_bytes() if path.exists() else None, before)
        ran = run("right", "--out", "out.csv", "--take", "../part-1.csv", "../part-3.csv")
        self.assertEqual((ran.returncode, len((self.folder / "right" / "out.csv").read_text(encoding="utf-8").splitlines())), (0, 4), ran.stderr)


if __name__ == "__main__":
    unittest.main()
