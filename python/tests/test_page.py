"""Run the examples of the page as a reader would: each prints the output that the page shows below it."""
from __future__ import annotations

import os
import re
import subprocess
import sys
import tempfile
import unittest
from pathlib import Path

TOP = Path(__file__).resolve().parents[1]
EXAMPLE = re.compile(r"^\*\*(\d+)\.|^```python\n(.*?)^```\n^```\n(.*?)^```\n", re.S | re.M)


def find_python(package: str) -> str | None:
    """Return a Python that has a package: this one, or Debian's."""
    pythons = (sys.executable, "/usr/bin/python3")
    return next((one for one in pythons if not subprocess.run([one, "-c", f"import {package}"], stderr=subprocess.DEVNULL,
                                                              check=False).returncode), None)


class Page(unittest.TestCase):
    def test_the_examples(self) -> None:
        page = (TOP / "README.md").read_text(encoding="utf-8")
        begin = re.search(r"with these lines:\n\n((?:    .*\n|\n)+)", page)
        assert begin
        head = "".join(line[4:] or "\n" for line in begin[1].splitlines(keepends=True))
        parts = EXAMPLE.findall(page)
        found = [(number, code, printed) for (number, _, _), (_, code, printed) in zip(parts[::2], parts[1::2])]
        self.assertEqual([number for number, _, _ in found], [str(number) for number in range(1, 11)])
        for number, code, printed in found:
            with self.subTest(example=number), tempfile.TemporaryDirectory() as folder:
                needs = next((one for one in ("pandas", "numpy", "to_array") if one in code), "sys").replace("to_array", "numpy")
                python = find_python(needs)
                if python is None:
                    print(f"left out: example {number} of python/README.md ({needs} not installed)", flush=True)
                    continue
                Path(folder, "example.py").write_text(head + code, encoding="utf-8")
                ran = subprocess.run([python, "example.py"], capture_output=True, text=True, check=False, cwd=folder,
                                     env={**os.environ, "PYTHONPATH": str(TOP)})
                self.assertEqual((ran.returncode, ran.stdout), (0, printed), ran.stderr)


if __name__ == "__main__":
    unittest.main()
