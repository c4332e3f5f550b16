"""Ask a client of Dask which scheduler it is connected to, and why no results come.

Dask forgets a result that it fetches while its scheduler is started again: the future of an executor then never ends.
"""
from __future__ import annotations

from concurrent.futures import Executor
from typing import Mapping, Protocol


class Scheduler(Protocol):
    """A scheduler as a client sees it."""

    address: str


class Client(Protocol):
    """The part of `distributed.Client` that is used here."""

    status: str
    scheduler: Scheduler

    def scheduler_info(self) -> Mapping[str, object]:
        """Return the name of the scheduler and its workers."""


class DaskCluster:
    """The cluster of an executor made by `Client.get_executor()`."""

    def __init__(self, client: Client) -> None:
        self._client = client

    def find_scheduler(self) -> str | None:
        """Return the name that the present scheduler has given itself at its start, or None if the client is not connected."""
        found = self._client.scheduler_info() if self._client.status == "running" else {}
        return str(found["id"]) if "id" in found else None

    def is_closed(self) -> bool:
        """Return whether the client has given up: it then never connects again."""
        return self._client.status in ("closing", "closed")

    def explain_silence(self) -> str | None:
        """Return what is missing, and what to do about it. None: workers are there, and compute."""
        address = self._client.scheduler.address
        if self.find_scheduler() is None:
            return f"no scheduler at {address}: start it again, and then its workers"
        if not self._client.scheduler_info()["workers"]:
            return f"no workers at {address}: Debian's workers end with their scheduler, so start them again"
        return None


def find_cluster(executor: Executor) -> DaskCluster | None:
    """Return the cluster of an executor, or None if it is not one of Dask's."""
    client: Client | None = getattr(executor, "_client", None)
    return DaskCluster(client) if client is not None and hasattr(client, "scheduler_info") else None
