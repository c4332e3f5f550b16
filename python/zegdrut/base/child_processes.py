"""Child processes that end when their parent ends, however it ends.

    subprocess.Popen(words, preexec_fn=functools.partial(end_with_parent, os.getpid()))
"""
from __future__ import annotations

import ctypes
import os
import signal

DIES_WITH_PARENT = 1
"""PR_SET_PDEATHSIG of `man prctl`."""


def end_with_parent(parent: int, number: int = signal.SIGKILL) -> None:
    """Let the kernel send this process a signal as soon as the thread that forked it has ended. If its parent has ended already, end now.

    parent: the number of the parent, taken before the fork: the kernel reports only what happens after this call, so a parent
        that ended before it shows in its number alone.
    """
    ctypes.CDLL(None).prctl(DIES_WITH_PARENT, number)
    if os.getppid() != parent:
        os._exit(128 + number)
