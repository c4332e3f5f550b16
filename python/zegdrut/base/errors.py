"""Errors of this package: each is a `LabError`."""
from __future__ import annotations

STATUSES = {3: "out of memory", 4: "its output could not be written", 5: "the script could not be read",
            6: "more lines or bytes than the limit", 7: "a thread could not start, or has ended"}
"""Meanings of the program's exit statuses, except 0 and 2."""


def describe_error(fault: Exception) -> str:
    """Return a sentence on an error. For a file that cannot be read or written it has the path and what to do."""
    if isinstance(fault, OSError) and fault.filename is not None and not isinstance(fault, LabError):
        return f"{fault.filename}: {fault.strerror}: check the path"
    return str(fault)


class LabError(Exception):
    """An error of this package, except for wrong arguments, which are a TypeError or a ValueError."""


class Fault(LabError):
    """A script, a figure, a file or a request is wrong. The message is a sentence that says where and how."""


class Refused(LabError):
    """The program refused a command or the plan. Nothing has changed.

    reason: the name of the refusal, such as "NoObject".
    why: what is wrong with the line, in a sentence.
    command: the line.
    """

    def __init__(self, reason: str, why: str, command: str) -> None:
        super().__init__(f"{reason}: {why}: {command}")
        self.reason, self.why, self.command = reason, why, command

    def __reduce__(self) -> tuple[type[Refused], tuple[str, str, str]]:
        return Refused, (self.reason, self.why, self.command)


class LabBroken(LabError):
    """The lab cannot reply any more: its program has ended, it was closed, or it belongs to another process."""

    def __init__(self, cause: str) -> None:
        super().__init__(f"{cause}: start a new one")
        self.cause = cause

    def __reduce__(self) -> tuple[type[LabBroken], tuple[str]]:
        return type(self), (self.cause,)


class Ended(LabBroken):
    """The program ended before it replied.

    status: its exit status, negative for a signal.
    said: what it wrote to standard error.
    """

    def __init__(self, status: int, said: str) -> None:
        super().__init__(f"the program ended with status {status}: {STATUSES.get(status) or said or 'no message'}")
        self.status, self.said = status, said

    def __reduce__(self) -> tuple[type[Ended], tuple[int, str]]:  # type: ignore[override]
        return Ended, (self.status, self.said)


class LabTimeout(LabError, TimeoutError):
    """The reply did not come in time. Either the program carries the call out all the same, and the next call waits for that; or it was
    busy with earlier calls, and this one was dropped. The message says which."""


class LabCancelled(LabError):
    """The call was cancelled. If the program has begun it, it carries it out all the same, and the next call waits for that."""

    def __init__(self) -> None:
        super().__init__("the call was cancelled: if the program has begun it, the next call waits for its end")

    def __reduce__(self) -> tuple[type[LabCancelled], tuple[()]]:
        return type(self), ()
