"""Run jobs in parallel processes that are forked. If a process dies or takes too long, only its own job fails.

`ProcessPoolExecutor` and joblib's loky cannot do this: both break as a whole if one of their processes dies, and neither ends a job
that takes too long, or takes a job that cannot be pickled, such as a lambda.
"""
from __future__ import annotations

import contextlib
import math
import multiprocessing
import os
import signal
import sys
import threading
import time
from collections import deque
from multiprocessing.connection import Connection, wait
from typing import Callable, Generator, NamedTuple, Sequence, TypeVar

from ..program.programs import NoProgram

Job = TypeVar("Job")


class Outcome(NamedTuple):
    """The index of a job, with its value, or with an error message."""

    job: int
    value: object
    error: str | None


class Worker:
    """A forked process that runs one job at a time."""

    def __init__(self, work: Callable[[Job], object], jobs: Sequence[Job], others: Sequence[Worker]) -> None:
        context = multiprocessing.get_context("fork")
        self.pipe, end = context.Pipe()
        strangers = [self.pipe, *(other.pipe for other in others)]
        self.process = context.Process(target=serve, args=(work, jobs, end, strangers), daemon=True)
        self.process.start()
        end.close()
        self.job: int | None = None
        self.until = math.inf

    def begin(self, job: int, timeout: float | None) -> None:
        """Start a job, which may take `timeout` seconds."""
        self.job = job
        self.until = math.inf if timeout is None else time.monotonic() + timeout
        with contextlib.suppress(OSError):  # (`result` then finds that the process has ended)
            self.pipe.send(job)

    def result(self) -> Outcome | None:
        """Return the outcome of the job, or None if the process has ended without a job."""
        job = self.job
        try:
            done: Outcome = self.pipe.recv()
            self.job = None
            return done
        except (EOFError, OSError):
            self.process.join()
            status = self.process.exitcode or 0
            if time.monotonic() >= self.until:
                return None if job is None else Outcome(job, None, "it took longer than its timeout")
            how = f"by {signal.Signals(-status).name}" if status < 0 else f"with status {status}"
            return None if job is None else Outcome(job, None, f"its process ended {how}")

    def end_late_job(self) -> None:
        """Kill the process if its job takes too long."""
        if time.monotonic() >= self.until:
            self.process.kill()

    def end(self) -> None:
        """End the process, even during a job."""
        self.pipe.close()
        if self.process.is_alive() and self.job is not None:
            self.process.terminate()
        self.process.join()


def serve(work: Callable[[Job], object], jobs: Sequence[Job], pipe: Connection, strangers: Sequence[Connection]) -> None:
    """Run the jobs whose indexes arrive. Ctrl-C is handled by the parent process only."""
    signal.signal(signal.SIGINT, signal.SIG_IGN)
    signal.signal(signal.SIGTERM, lambda *_: sys.exit(1))
    threading.Thread(target=end_with_parent, daemon=True).start()
    for stranger in strangers:
        stranger.close()  # (otherwise this process keeps pipes open, and other processes wait for their end)
    while True:
        try:
            job = pipe.recv()
        except (EOFError, OSError):  # (the parent has ended)
            return
        try:
            done = Outcome(job, work(jobs[job]), None)
        except NoProgram as fault:
            done = Outcome(job, fault, None)  # (the parent raises it: no other job can succeed)
        except Exception as fault:
            done = Outcome(job, None, f"{type(fault).__name__}: {fault}")
        try:
            pipe.send(done)
        except OSError:
            return
        except Exception as fault:  # (any error of pickling)
            pipe.send(Outcome(job, None, f"the result cannot be sent to the parent process: {fault}"))


def end_with_parent() -> None:
    """End this process once its parent has ended, even during a job."""
    parent = multiprocessing.parent_process()
    if parent is not None:
        parent.join()
        os.kill(os.getpid(), signal.SIGTERM)


def count_processors() -> int:
    """Return the number of processors that this process may use."""
    return len(os.sched_getaffinity(0))


def run_in_parallel(work: Callable[[Job], object], jobs: Sequence[Job], workers: int | None = None,
                    timeout: float | None = None) -> Generator[Outcome, None, None]:
    """Run `work(job)` for each job in `workers` processes, by default one per processor. Yield each outcome as it comes.

    Results are pickled; `work` and the jobs are not. An exception in `work`, a process that dies, and a job that takes longer than
    `timeout` seconds give an `error`. NoProgram: `work` raised it; the other jobs are ended.
    """
    team: list[Worker] = []
    waiting = deque(range(len(jobs)))
    try:
        while waiting and len(team) < (workers or count_processors()):
            team.append(Worker(work, jobs, team))
            team[-1].begin(waiting.popleft(), timeout)
        while team:
            left = min(worker.until for worker in team) - time.monotonic()
            ready = wait([worker.pipe for worker in team], None if left == math.inf else max(left, 0))
            for worker in team:
                worker.end_late_job()
            for worker in [worker for worker in team if worker.pipe in ready]:
                done = worker.result()
                if worker.job is not None:  # (its process has died)
                    team.remove(worker)
                    worker.job = None
                    worker.end()
                    worker = Worker(work, jobs, team)
                    team.append(worker)
                if waiting:
                    worker.begin(waiting.popleft(), timeout)
                else:
                    team.remove(worker)
                    worker.end()
                if done is not None and isinstance(done.value, NoProgram):
                    raise done.value
                if done is not None:
                    yield done
    finally:
        for worker in team:
            worker.end()
