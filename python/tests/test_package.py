"""Test that the package is installed by pip without a network, has types, and runs with Debian's python3."""
from __future__ import annotations

import importlib
import os
import re
import shutil
import subprocess
import sys
import tempfile
import unittest
from pathlib import Path

from test_page import TOP, find_python
from zegdrut.__main__ import COMMANDS
from zegdrut.program.programs import program_path

DEBIAN = "/usr/bin/python3"
SCRIPT = '{"length":12,"exit":1,"zone":12,"zones":[[2,0]],"inlets":[[0,65536]],"detectors":[],"words":7,"replicas":["A"]}\n{"advance":{"to":6}}\n'


class Package(unittest.TestCase):
    def setUp(self) -> None:
        self.folder = Path(self.enterContext(tempfile.TemporaryDirectory()))

    def run_python(self, *words: str, python: str = sys.executable, path: Path = TOP) -> subprocess.CompletedProcess[str]:
        return subprocess.run([python, *words], capture_output=True, text=True, check=False, cwd=self.folder,
                              env={**os.environ, "PYTHONPATH": str(path), "ROAD_LAB": str(program_path().resolve())})

    def check_package(self, python: str, path: Path) -> None:
        """Check that the package at a path runs a road and has its commands."""
        code = ("import zegdrut; lab = zegdrut.RoadLab(zegdrut.Plan(length=12, inlets=[(0, 65_536)], zones=[(2, 0)]))\n"
                "lab.advance('A', 6); print(lab.cells('A', 6)); print(zegdrut.__file__)")
        ran = self.run_python("-c", code, python=python, path=path)
        self.assertEqual(ran.stdout.splitlines(), ["0..2...2....", str(path / "zegdrut" / "__init__.py")], ran.stderr)
        (self.folder / "script.jsonl").write_text(SCRIPT, encoding="utf-8")
        ran = self.run_python("-m", "zegdrut", "explain", "script.jsonl", python=python, path=path)
        self.assertEqual((ran.returncode, ran.stdout.splitlines()[0]), (1, "line 2: not a command: `advance` lacks `at`"), ran.stderr)
        ran = self.run_python("-m", "zegdrut", "program", python=python, path=path)
        self.assertEqual((ran.returncode, ran.stdout.strip()), (0, str(program_path().resolve())), ran.stderr)

    def test_by_the_path_alone(self) -> None:
        for python in {sys.executable, shutil.which("python3", path="/usr/bin") or sys.executable}:
            self.check_package(python, TOP)

    def test_installed_by_pip(self) -> None:
        """Install in fresh virtual environments, and with Debian's own Python as the page says, without options for pip, network or wheel.

        Nothing is left in the sources. The installed package finds the program by its path in the user's data folder.
        """
        source = shutil.copytree(TOP, self.folder / "source", ignore=shutil.ignore_patterns("__pycache__", ".mypy_cache"))
        before = sorted(path.relative_to(source) for path in source.rglob("*"))
        quiet = {"PIP_NO_INDEX": "1", "PIP_DISABLE_PIP_VERSION_CHECK": "1", "PIP_ROOT_USER_ACTION": "ignore", "PIP_QUIET": "1"}
        clean = {name: value for name, value in os.environ.items() if name not in ("PYTHONPATH", "PYTHONDONTWRITEBYTECODE", "ROAD_LAB")}
        data = self.folder / "data" / "zegdrut"
        data.mkdir(parents=True)
        (data / "program").write_text(f"{program_path().resolve()}\n", encoding="utf-8")
        for number, python in enumerate(dict.fromkeys([sys.executable, DEBIAN, f"{DEBIAN} "])):
            base = self.folder / f"installed {number}"
            environment = {**clean, **quiet, "PYTHONUSERBASE": str(base), "PATH": f"{base}/bin:{clean['PATH']}", "XDG_DATA_HOME": str(data.parent)}
            options = ["--user", "--break-system-packages"] if python.endswith(" ") else []
            if find_python("pip, ensurepip") is None or not Path(python.strip()).exists():
                self.skipTest("pip or ensurepip not installed")
            if options:
                python = DEBIAN
            else:
                subprocess.run([python, "-m", "venv", str(base)], check=True)
                python = str(base / "bin" / "python3")
            ran = subprocess.run([python, "-m", "pip", "install", *options, "./source"], cwd=self.folder, capture_output=True, text=True, check=False,
                                 env=environment)
            self.assertEqual((ran.returncode, ran.stderr), (0, ""), ran.stdout)
            self.assertEqual(sorted(path.relative_to(source) for path in source.rglob("*")), before)
            code = ("import zegdrut; lab = zegdrut.RoadLab(zegdrut.Plan(length=12, inlets=[(0, 65_536)], zones=[(2, 0)]))\n"
                    "lab.advance('A', 6); print(lab.cells('A', 6)); print(zegdrut.__file__)")
            ran = subprocess.run([python, "-c", code], cwd=self.folder, capture_output=True, text=True, check=False, env=environment)
            row, place = ran.stdout.splitlines() or ("", "")
            self.assertEqual(row, "0..2...2....", ran.stderr)
            site = Path(place).parents[1]
            self.assertTrue(site.is_relative_to(base), site)
            packed = sorted(path.relative_to(site) for path in (site / "zegdrut").rglob("*") if path.is_file() and path.suffix != ".pyc")
            self.assertEqual(packed, sorted(path.relative_to(source) for path in (source / "zegdrut").rglob("*") if path.is_file()))
            ran = subprocess.run([str(base / "bin" / "zegdrut"), "program"], cwd=self.folder, capture_output=True, text=True, check=False,
                                 env=environment)
            self.assertEqual(ran.stdout.strip(), str(program_path().resolve()), ran.stderr)
            ran = subprocess.run([python, "-m", "pip", "show", "--files", "zegdrut"], capture_output=True, text=True, check=False,
                                 env={**environment, "PIP_QUIET": "0"})
            self.assertIn("Version: 1.0\n", ran.stdout)

    def test_the_archive_of_the_sources(self) -> None:
        """Make the archive of the sources, and a wheel from it: this is the wheel of the sources."""
        code = ("import sys; sys.path.insert(0, sys.argv[1] + '/build_backend'); sys.dont_write_bytecode = True\n"
                "import zegdrut_build; print(zegdrut_build.build_sdist('.'), zegdrut_build.build_wheel('.'))")
        ran = subprocess.run([sys.executable, "-c", code, str(TOP)], cwd=self.folder, capture_output=True, text=True, check=True)
        sources, wheel = ran.stdout.split()
        first = (self.folder / wheel).read_bytes()
        shutil.unpack_archive(self.folder / sources, self.folder)
        subprocess.run([sys.executable, "-c", code, str(self.folder / sources.removesuffix(".tar.gz"))], cwd=self.folder, check=True,
                       stdout=subprocess.DEVNULL)
        self.assertEqual((self.folder / wheel).read_bytes(), first)

    def test_types(self) -> None:
        mypy = shutil.which("mypy")
        if mypy is None:
            self.skipTest("mypy not installed")
        cache = str(TOP / ".mypy_cache")
        (self.folder / "model.py").write_text("from zegdrut import Plan, RoadLab\n"
                                              "lab = RoadLab(Plan(length='9', inlets=[], zones=[(5, 0)]))\n"
                                              "reveal_type(lab.cells('A', 3))\n"
                                              "lab.edit('A', ('bloc', 24), 3, 1)\nlab.edit('A', ('block', 24), 3, 1)\n", encoding="utf-8")
        ran = subprocess.run([mypy, "--cache-dir", cache, "model.py"], capture_output=True, text=True, check=False,
                             cwd=self.folder, env={**os.environ, "MYPYPATH": str(TOP)})
        self.assertIn('Argument "length" to "Plan" has incompatible type "str"', ran.stdout)
        self.assertIn('Revealed type is "builtins.str"', ran.stdout)
        self.assertIn("model.py:4: error: Argument 2", ran.stdout)
        self.assertNotIn("model.py:5", ran.stdout)

    def test_public_names(self) -> None:
        """Compare the lists of public names with the page, and require that whoever uses such a name takes it from where the page says."""
        page = (TOP / "README.md").read_text(encoding="utf-8").partition("## Public names")[2].partition("\n## ")[0]
        shown = {name: re.findall(r"`(\w+)`", text) for name, text in re.findall(r"^- \*\*`([\w.]+)`\*\* \([^)]*\):(.*?)(?=^- |^$)", page, re.M | re.S)}
        rooms = {name: importlib.import_module(name) for name in shown}
        packages = {path.parent.name for path in (TOP / "zegdrut").glob("*/__init__.py")}
        self.assertEqual({name.removeprefix("zegdrut").removeprefix(".") for name in shown}, packages - {"commands"} | {""})
        self.assertEqual(shown, {name: sorted(room.__all__) for name, room in rooms.items()})
        for room in rooms.values():
            self.assertTrue(all(hasattr(room, name) for name in room.__all__))
        top = TOP.parent
        users = [path for folder in ("live", "recipes", "bench") for path in (top / folder).rglob("*")
                 if path.is_file() and path.suffix in ("", ".py", ".md") and ".mypy_cache" not in path.parts]
        self.assertGreater(len(users), 100)
        for path in [*users, TOP / "README.md", top / "README.md"]:
            for module, names in re.findall(r"^ *from (zegdrut\.\w+)\.\w+ import \(?([^)\n#]+)", path.read_text(encoding="utf-8", errors="replace"), re.M):
                public = set(re.findall(r"\w+", names)) & set(shown.get(module, ()))
                self.assertFalse(public, f"{path.relative_to(top)} takes {public} from a module: take it from {module}")

    def test_help(self) -> None:
        for command in COMMANDS:
            ran = self.run_python("-m", "zegdrut", command, "--help")
            self.assertEqual((ran.returncode, ran.stderr), (0, ""), command)
            self.assertIn(f"python3 -m zegdrut {command}", ran.stdout)
        for command in ("--help", *COMMANDS):
            with self.subTest("nobody reads the help", command=command):
                reading, writing = os.pipe()
                os.close(reading)
                ran = subprocess.run([sys.executable, "-m", "zegdrut", command, "--help"], stdout=writing, stderr=subprocess.PIPE, text=True,
                                     check=False, cwd=self.folder, env={**os.environ, "PYTHONPATH": str(TOP)})
                os.close(writing)
                self.assertEqual(ran.stderr, "")
        ran = self.run_python("-m", "zegdrut", "fly")
        self.assertEqual((ran.returncode, ran.stderr), (2, f"unknown command 'fly': the commands are {' '.join(COMMANDS)} program\n"))


if __name__ == "__main__":
    unittest.main()
