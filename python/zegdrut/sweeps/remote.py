"""Run jobs on the worker of an executor, which may be on another machine and may lack this package and the program."""
from __future__ import annotations

import atexit
import functools
import importlib
import pickle
import shutil
import tempfile
import time
from pathlib import Path
from typing import Callable, NamedTuple, Sequence

from ..program.programs import NoProgram, using_program, write_copy

Reply = tuple[str, str, object]
"""(RAN, worker, list of `Ran`); (NEEDS, worker, what is missing); or (UNFIT, worker, why no run can succeed there)."""
RAN, NEEDS, UNFIT = "ran", "needs", "unfit"


class Order(NamedTuple):
    """The order for a worker: all that a batch needs, apart from its jobs.

    work: the function of a job, pickled, with cloudpickle if it is installed. program: how the caller's program is described.
    """

    work: bytes
    program: str
    timeout: float | None


class Ran(NamedTuple):
    """The outcome of a job: its value or its error, and its seconds."""

    value: object
    error: str | None
    seconds: float


def boot(python: str, text: str, package: bytes | None, program: bytes | None, order: bytes, batch: bytes) -> Reply:
    """Run a batch. This function is sent as source text: so it imports everything, and needs nothing of this module.

    python: the caller's version. text: the hash of the caller's package. package: the package as a zip file, if it is shipped. program:
    the program and its record, pickled, if they are shipped. order, batch: an `Order` and a list of jobs, pickled.
    """
    import os
    import platform
    import socket
    import sys
    worker = f"{socket.gethostname()}, process {os.getpid()}"
    if platform.python_version() != python:
        return "unfit", worker, f"it runs Python {platform.python_version()}, and the caller runs {python}: start it with the same Python"
    if package is not None and "zegdrut" not in sys.modules:
        import atexit
        import io
        import shutil
        import tempfile
        import zipfile
        try:
            from distributed import get_worker
            room = get_worker().local_directory
        except (ImportError, ValueError):  # (this is not a worker of Dask)
            room = None
        folder = tempfile.mkdtemp(prefix="zegdrut-", dir=room)
        atexit.register(shutil.rmtree, folder, True)
        zipfile.ZipFile(io.BytesIO(package)).extractall(folder)
        sys.path.insert(0, folder)
    try:
        from zegdrut.sweeps import marks, remote
    except ImportError:
        return "needs", worker, "it has no package zegdrut: install it there, or send it with ship=True (--ship)"
    if marks.sum_package() != text:
        return "unfit", worker, f"its package zegdrut, {marks.PACKAGE}, differs from the caller's: install the caller's version there"
    return remote.run_batch(worker, program, pickle_order=order, batch=batch)


def run_batch(worker: str, program: bytes | None, pickle_order: bytes, batch: bytes) -> Reply:
    """Run a batch of jobs. NEEDS: a job needs the program, which is missing or a different one."""
    order: Order = pickle.loads(pickle_order)
    path = None if program is None else keep_program(program)
    try:
        work = unpack(order.work)
        jobs: Sequence[object] = pickle.loads(batch)
    except Exception as fault:  # (whatever unpickling raises)
        return UNFIT, worker, f"the model cannot be read there: {type(fault).__name__}: {fault}"
    found: list[Ran] = []
    for job in jobs:
        begin = time.monotonic()
        try:
            with using_program(path or kept_program(), order.timeout, order.program):
                value, error = work(job), None
        except NoProgram as fault:
            return NEEDS, worker, str(fault)
        except Exception as fault:
            value, error = None, f"{type(fault).__name__}: {fault}"
        found.append(Ran(value, error, time.monotonic() - begin))
    return RAN, worker, found


@functools.lru_cache(8)
def unpack(work: bytes) -> Callable[[object], object]:
    """Return the function of a job."""
    function: Callable[[object], object] = pickle.loads(work)
    return function


KEPT: dict[str, Path] = {}


def keep_program(shipped: bytes) -> Path:
    """Keep a shipped program, with its record, in a folder that is removed at the end of this process. Return its path."""
    data, record = pickle.loads(shipped)
    folder = Path(tempfile.mkdtemp(prefix="zegdrut-", dir=find_worker_folder()))
    atexit.register(shutil.rmtree, folder, True)
    KEPT["program"] = write_copy(folder / "road_lab", data, record)
    return KEPT["program"]


def find_worker_folder() -> str | None:
    """Return the folder of this worker of Dask, which removes what a killed worker has left there; None for other processes."""
    try:
        worker = importlib.import_module("distributed").get_worker()
    except (ImportError, ValueError):
        return None
    return str(worker.local_directory)


def kept_program() -> Path | None:
    """Return the program that was shipped to this process, if there is one."""
    return KEPT.get("program")
