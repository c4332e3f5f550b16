"""Test that each job of a process has its timeout, and that Ctrl-C reaches the parent process only."""
from __future__ import annotations

import os
import signal
import time
import unittest

from zegdrut.sweeps.pool import run_in_parallel


def wait(seconds: float) -> float:
    time.sleep(seconds)
    return seconds


def interrupt(job: int) -> int:
    """Send this process what Ctrl-C sends to all processes of a terminal."""
    os.kill(os.getpid(), signal.SIGINT)
    time.sleep(0.05)
    return job


class Pool(unittest.TestCase):
    def test_each_job_has_its_timeout(self) -> None:
        """The third job of a process takes too long, and so does the fifth, which a new process begins after that; the others end in time."""
        begin = time.monotonic()
        found = {one.job: (one.value, one.error) for one in run_in_parallel(wait, [0.0, 0.01, 6.0, 0.02, 6.0, 0.03], workers=1, timeout=0.6)}
        self.assertLess(time.monotonic() - begin, 6)
        late = (None, "it took longer than its timeout")
        self.assertEqual(found, {0: (0.0, None), 1: (0.01, None), 2: late, 3: (0.02, None), 4: late, 5: (0.03, None)})

    def test_workers_ignore_interrupts(self) -> None:
        found = sorted((one.job, one.value, one.error) for one in run_in_parallel(interrupt, [7, 8, 9], workers=2))
        self.assertEqual(found, [(0, 7, None), (1, 8, None), (2, 9, None)])


if __name__ == "__main__":
    unittest.main()
