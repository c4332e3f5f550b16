"""Test that a child process ends with its parent, even if the parent ends before the child has asked the kernel for that."""
from __future__ import annotations

import os
import select
import subprocess
import sys
import tempfile
import unittest
from pathlib import Path

from test_page import TOP

DELAY = 1.0  # seconds that a child takes before it asks
PATIENCE = 60.0  # seconds, enough even on a busy machine
PARENT = """
import functools, os, signal, subprocess, sys, time
from zegdrut.base.child_processes import end_with_parent
def begin(parent):
    print("forked", flush=True)
    time.sleep(float(sys.argv[1]))
    end_with_parent(parent, signal.SIGTERM)
subprocess.run(["sh", "-c", "echo begun; exec sleep 600"], preexec_fn=functools.partial(begin, os.getpid()))
"""
LABORATORY = """
from zegdrut import Plan, RoadLab
RoadLab(Plan(length=40, inlets=[(0, 9_000)], zones=[(3, 0)], replicas=["a"], words=3))
"""
# A setpriv that writes its number, which is then the program's, and takes its time.
SETPRIV = """#!/bin/sh
echo $$ > {folder}/writing
mv {folder}/writing {folder}/number
sleep {delay}
exec /usr/bin/setpriv "$@"
"""


class Children(unittest.TestCase):
    def start(self, text: str, *words: str, **environment: str) -> subprocess.Popen[str]:
        """Start a parent, whose output and errors can be read."""
        return subprocess.Popen([sys.executable, "-c", text, *words], env={**os.environ, "PYTHONPATH": str(TOP), **environment}, text=True,
                                stdout=subprocess.PIPE, stderr=subprocess.STDOUT)

    def read_lines(self, parent: subprocess.Popen[str], count: int) -> list[str]:
        assert parent.stdout is not None
        return [parent.stdout.readline().strip() for _ in range(count)]

    def read_to_end(self, parent: subprocess.Popen[str]) -> str:
        """Kill the parent. Return what is printed until all processes that have its output open have ended."""
        parent.kill()
        return parent.communicate(timeout=PATIENCE)[0]

    def test_a_child_that_has_asked_ends(self) -> None:
        with self.start(PARENT, "0") as parent:
            self.assertEqual(self.read_lines(parent, 2), ["forked", "begun"])
            self.assertEqual(self.read_to_end(parent), "")

    def test_a_child_that_asks_too_late_ends_before_its_command_begins(self) -> None:
        with self.start(PARENT, str(DELAY)) as parent:
            self.assertEqual(self.read_lines(parent, 1), ["forked"])
            self.assertEqual(self.read_to_end(parent), "")

    def test_a_program_that_is_guarded_too_late_ends_with_its_input(self) -> None:
        folder = Path(self.enterContext(tempfile.TemporaryDirectory()))
        guard, number = folder / "setpriv", folder / "number"
        guard.write_text(SETPRIV.format(folder=folder, delay=DELAY), encoding="utf-8")
        guard.chmod(0o755)
        with self.start(LABORATORY, PATH=f"{folder}:{os.environ['PATH']}") as parent:
            while not number.exists():
                self.assertIsNone(parent.poll())
            program = os.pidfd_open(int(number.read_text(encoding="utf-8")))
            self.addCleanup(os.close, program)
            parent.kill()
            self.assertEqual(select.select([program], [], [], PATIENCE)[0], [program])


if __name__ == "__main__":
    unittest.main()
