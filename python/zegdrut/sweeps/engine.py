"""Run jobs, such as the runs of a sweep, by an executor of `concurrent.futures`' form: of processes, Dask, MPI or joblib's loky.

    with ProcessPoolExecutor() as executor:
        sweep(road, points, executor=executor)
    with dask.distributed.Client("tcp://HOST:8786") as client:
        sweep(road, points, executor=client.get_executor(), ship=True)

Short jobs are sent in batches. A batch that is lost (its worker died, or the scheduler was started again) is sent once more, a job at a
time; what is lost then is a failure. Each job has one outcome, also if a scheduler repeats it. While no result comes from Dask, one line
on standard error says what is missing.
"""
from __future__ import annotations

import contextlib
import functools
import inspect
import io
import pickle
import platform
import queue
import sys
import time
import types
import warnings
import zipfile
from collections import Counter, deque
from concurrent.futures import BrokenExecutor, CancelledError, Executor, Future, wait
from pathlib import Path
from typing import Callable, Generator, Iterator, Sequence, TypeVar

from ..base.errors import Fault
from ..program.programs import NoProgram, describe_program, find_program, read_copy
from .dask_cluster import DaskCluster, find_cluster
from .marks import PACKAGE, Reach, Unknown, is_installed_module, module_of, sum_package
from .pool import Outcome, run_in_parallel
from .remote import NEEDS, RAN, Order, Ran, Reply, boot

Job = TypeVar("Job")

FIRST_PENDING = 8
"""The batches that are sent before the first of them has ended."""
PENDING = 4
"""The batches that are sent for each worker that has replied."""
LAST_REPLIES = 2.0
"""The seconds to wait for replies of workers that cannot run the sweep."""
BATCH_SECONDS = 0.25
"""About how long a batch takes."""
MOST_OF_BATCH = 100
ATTEMPTS = 3
"""How often a job is sent that was cancelled by the executor or lost."""
LOOK = 1.0
"""The seconds without a result after which a sweep looks at its cluster."""
SETTLED = 5.0
"""The seconds after which a new scheduler has ended the futures of the earlier one, but for those that Dask has forgotten."""
SILENCE = 40.0
"""The seconds without a result after which a sweep says what is missing."""


class Boot:
    """The function `boot`, which is pickled as its source text, so that a worker without this package can call it."""

    def __reduce__(self) -> tuple[Callable[..., object], tuple[str]]:
        return eval, (f"(lambda names: (exec({boot_source()!r}, names), names['boot'])[1])({{}})",)

    def __call__(self, *given: object) -> Reply:
        return boot(*given)  # type: ignore[arg-type]


def boot_source() -> str:
    """Return the source text of `boot` without annotations of types that a worker lacks."""
    return "from __future__ import annotations\n" + inspect.getsource(boot)


class Engine:
    """Jobs that an executor runs: which ones wait, which were sent, and what was shipped."""

    def __init__(self, executor: Executor, work: Callable[[Job], object], jobs: Sequence[Job], program: Path | str | None,
                 timeout: float | None, ship: bool) -> None:
        self._executor, self._jobs, self._ship = executor, jobs, ship
        self._program = Path(program or find_program())
        self._order = pickle.dumps(Order(pack(work), describe_program(self._program), timeout))
        self._waiting = deque(range(len(jobs)))
        self._alone: set[int] = set()  # jobs that are sent in batches of one, because a batch of them was lost
        self._held: list[int] = []  # jobs that wait until a worker has got what it lacks
        self._sent: dict[Future[Reply], tuple[list[int], bool]] = {}
        self._done: queue.SimpleQueue[Future[Reply]] = queue.SimpleQueue()
        self._lost: Counter[int] = Counter()
        self._workers: set[str] = set()
        self._size = 1
        self._shipping = 0
        self._seconds, self._ran = 0.0, 0
        self._cluster = find_cluster(executor)
        self._scheduler = self._cluster.find_scheduler() if self._cluster else None
        self._forgotten: set[Future[Reply]] = set()  # futures of an earlier scheduler
        self._renewed, self._heard = 0.0, time.monotonic()  # when there was a new scheduler, and the last result

    def run(self) -> Generator[Outcome, None, None]:
        """Run all. Yield each outcome as it comes. Fault: the executor is broken, or a worker cannot run the work."""
        try:
            while self._waiting or self._sent or self._held:
                while self._waiting and len(self._sent) < max(FIRST_PENDING, PENDING * len(self._workers)):
                    self._send(self._take(), False)
                if not self._sent:
                    self._send(self._held[:1], True)
                    del self._held[:1]
                yield from self._wait()
        finally:
            if not self._ran:  # (workers that lack something say so at once; Dask logs a future that ends while it is cancelled)
                wait(self._sent, LAST_REPLIES)
            for future in list(self._sent):
                future.cancel()

    def _take(self) -> list[int]:
        """Return the next batch."""
        batch = [self._waiting.popleft()]
        while self._waiting and len(batch) < self._size and batch[0] not in self._alone and self._waiting[0] not in self._alone:
            batch.append(self._waiting.popleft())
        return batch

    def _send(self, batch: list[int], with_all: bool) -> None:
        """Send a batch, with the package and the program if `with_all`."""
        package, program = (pack_package(), pickle.dumps(read_copy(self._program))) if with_all else (None, None)
        jobs = pickle.dumps([self._jobs[number] for number in batch])
        try:
            with warnings.catch_warnings():
                if with_all:
                    warnings.simplefilter("ignore", UserWarning)  # (Dask warns of a large argument)
                future = self._executor.submit(Boot(), platform.python_version(), sum_package(), package, program, self._order, jobs)
        except (BrokenExecutor, RuntimeError) as fault:
            raise describe_broken(fault) from None
        self._shipping += with_all
        self._sent[future] = batch, with_all
        future.add_done_callback(self._done.put)

    def _wait(self) -> Iterator[Outcome]:
        """Wait for a future to end. Yield the outcomes of its batch, or of batches that were lost meanwhile."""
        try:
            future = self._done.get(timeout=None if self._cluster is None else LOOK)
        except queue.Empty:
            assert self._cluster is not None
            yield from self._look(self._cluster)
        else:
            self._heard = time.monotonic()
            if future in self._sent:  # (otherwise its batch was sent again)
                yield from self._receive(future)

    def _look(self, cluster: DaskCluster) -> Iterator[Outcome]:
        """Send again what was sent to an earlier scheduler and has not ended. Say what is missing if there is no result for long."""
        if cluster.is_closed():
            raise describe_broken("its client has lost the scheduler")
        now, scheduler = time.monotonic(), cluster.find_scheduler()
        if scheduler not in (None, self._scheduler):
            self._scheduler, self._renewed, self._forgotten = scheduler, now, set(self._sent)
        if self._forgotten and now - self._renewed > SETTLED:
            for future in self._forgotten & set(self._sent):
                batch, was_shipping = self._sent.pop(future)
                self._shipping -= was_shipping
                future.cancel()
                yield from self._repeat(batch, CancelledError())
            self._forgotten.clear()
        if now - self._heard > SILENCE:
            missing = cluster.explain_silence()
            if missing:
                print(f"the sweep waits for {SILENCE:.0f} s: {missing}", file=sys.stderr, flush=True)
            self._heard = now

    def _receive(self, future: Future[Reply]) -> Iterator[Outcome]:
        batch, was_shipping = self._sent.pop(future)
        self._shipping -= was_shipping
        try:
            kind, worker, value = future.result()
        except BrokenExecutor as fault:
            raise describe_broken(fault) from None
        except (CancelledError, Exception) as fault:
            yield from self._repeat(batch, fault)
            return
        if kind == RAN:
            self._workers.add(worker)
            assert isinstance(value, list)
            yield from self._outcomes(batch, value)
            self._release()
        elif kind == NEEDS and self._ship and not was_shipping:
            self._held += batch
            if not self._shipping:
                self._send([self._held.pop()], True)
        else:
            raise NoWorker(f"the worker {worker} cannot run this sweep: {value}")

    def _outcomes(self, batch: list[int], found: list[Ran]) -> Iterator[Outcome]:
        for number, ran in zip(batch, found):
            self._seconds += ran.seconds
            self._ran += 1
            yield Outcome(number, ran.value, ran.error)
        mean = self._seconds / self._ran
        self._size = max(1, min(MOST_OF_BATCH, int(BATCH_SECONDS / max(mean, 1e-4)), len(self._waiting) // 16))

    def _release(self) -> None:
        """Let the held jobs wait for any worker."""
        self._waiting.extendleft(reversed(self._held))
        self._held.clear()

    def _repeat(self, batch: list[int], fault: BaseException) -> Iterator[Outcome]:
        """Send a lost batch once more, a job at a time. Yield the failures of jobs that are lost too often."""
        for number in batch:
            self._lost[number] += 1 if len(batch) == 1 else 0
            if self._lost[number] >= (ATTEMPTS if isinstance(fault, CancelledError) else 1):
                yield Outcome(number, None, f"{type(fault).__name__}: {fault}" if str(fault) else f"{type(fault).__name__}: its worker was lost")
            else:
                self._alone.add(number)
                self._waiting.append(number)


class NoWorker(Fault):
    """A worker cannot run a sweep."""


def describe_broken(fault: BaseException | str) -> Fault:
    """Return the error for an executor that runs nothing any more."""
    return Fault(f"the executor is broken ({fault}): the finished runs are kept, and the same call with a new executor continues")


def pack(work: Callable[[Job], object]) -> bytes:
    """Return the function of a job, pickled: with cloudpickle what the user has written, by value. Fault: it cannot be pickled."""
    try:
        import cloudpickle
    except ImportError:
        try:
            return pickle.dumps(work)
        except Exception as fault:
            raise Fault(f"the model cannot be sent to workers ({fault}): install python3-cloudpickle, or define it in a module") from None
    with contextlib.ExitStack() as stack:
        for module in list_modules(work):
            cloudpickle.register_pickle_by_value(module)
            stack.callback(cloudpickle.unregister_pickle_by_value, module)
        try:
            packed: bytes = cloudpickle.dumps(work)
        except Exception as fault:
            raise Fault(f"the model cannot be sent to workers: {fault}") from None
    return packed


def list_modules(work: object) -> list[types.ModuleType]:
    """Return the modules of the user that the function of a job reaches."""
    parts = (work.func, *work.args) if isinstance(work, functools.partial) else (work,)
    reach = Reach()
    with contextlib.suppress(Unknown):
        reach.parts(parts, None)
    found = {module.__name__: module for one in parts if (module := module_of(one)) is not None}
    return [module for name, module in {**found, **reach.modules}.items() if name != "__main__" and not is_installed_module(module)]


def pack_package() -> bytes:
    """Return this package as a zip file."""
    data = io.BytesIO()
    with zipfile.ZipFile(data, "w", zipfile.ZIP_DEFLATED) as file:
        for path in sorted(PACKAGE.rglob("*")):
            if path.is_file() and path.suffix != ".pyc":
                file.write(path, Path(PACKAGE.name) / path.relative_to(PACKAGE))
    return data.getvalue()


def run_by_executor(executor: Executor, work: Callable[[Job], object], jobs: Sequence[Job], program: Path | str | None = None,
                    timeout: float | None = None, ship: bool = False) -> Generator[Outcome, None, None]:
    """Run `work(job)` for each job by an executor. Yield each outcome as it comes.

    ship: send this package and the program to workers that lack them. NoWorker: a worker has another Python, package or program, and
    cannot be sent what it lacks. Fault: the executor is broken, or the work cannot be pickled.
    """
    try:
        yield from Engine(executor, work, jobs, program, timeout, ship).run()
    except NoProgram as fault:
        raise NoWorker(str(fault)) from None


def run_jobs(work: Callable[[Job], object], jobs: Sequence[Job], workers: int | None = None, executor: Executor | None = None,
             ship: bool = False) -> Generator[Outcome, None, None]:
    """Run `work(job)` for each job in `workers` processes, by default one per processor, or by an executor. Yield each outcome as it comes."""
    return run_in_parallel(work, jobs, workers) if executor is None else run_by_executor(executor, work, jobs, ship=ship)
