"""Draw progress bars: by tqdm if it is installed, also in Jupyter, and otherwise of signs."""
from __future__ import annotations

import importlib
import importlib.util
import sys
import time
from typing import Protocol

LOG_SECONDS = 10.0
"""The seconds between two lines of a log."""


class Drawing(Protocol):
    """A bar on a screen."""

    def draw(self, done: int, more: str, left: str) -> None:
        """Draw `done` units, with the text `more` and the time left."""

    def close(self) -> None:
        """End the line of the bar."""


class Signs:
    """A bar of signs on a terminal."""

    WIDTH = 40

    def __init__(self, whole: int, unit: str) -> None:
        self._whole, self._unit = whole, unit

    def draw(self, done: int, more: str, left: str) -> None:
        """Draw the bar in place of the earlier one."""
        full = self.WIDTH * done // self._whole
        sys.stderr.write(f"\r[{'#' * full}{'.' * (self.WIDTH - full)}] {done} of {self._whole} {self._unit}{more}{left}\x1b[K")
        sys.stderr.flush()

    def close(self) -> None:
        """End the line of the bar."""
        sys.stderr.write("\n")


class Tqdm:
    """A bar of tqdm, which estimates the time left itself."""

    def __init__(self, done: int, whole: int, unit: str) -> None:
        self._bar = importlib.import_module("tqdm.auto").tqdm(initial=done, total=whole, unit=f" {unit}", file=sys.stderr, dynamic_ncols=True)

    def draw(self, done: int, more: str, left: str) -> None:
        """Update the bar."""
        self._bar.set_postfix_str(more.lstrip(",; "), refresh=False)
        self._bar.update(done - self._bar.n)

    def close(self) -> None:
        """Leave the last state of the bar."""
        self._bar.close()


def is_notebook() -> bool:
    """Return whether this process is the kernel of a Jupyter notebook."""
    shell = getattr(sys.modules.get("IPython"), "get_ipython", lambda: None)()
    return "IPKernelApp" in getattr(shell, "config", ())


class Bar:
    """A progress bar. It draws nothing if everything is done at the first call.

    in_log: if there is neither a terminal nor a notebook, write a line every ten seconds. By default nothing is written then."""

    def __init__(self, unit: str = "steps", in_log: bool = False) -> None:
        self._unit = unit
        self._has_tqdm = importlib.util.find_spec("tqdm") is not None
        self._wanted = sys.stderr.isatty() or self._has_tqdm and is_notebook()
        self._in_log = in_log and not self._wanted
        self._logged = time.monotonic()
        self._drawing: Drawing | None = None

    def show(self, done: int, whole: int, more: str = "", seconds_left: float | None = None) -> None:
        """Draw the bar for `done` units of `whole`, followed by the text `more` and the time left."""
        left = "" if seconds_left is None else f", {format_duration(seconds_left)} left"
        if self._in_log and time.monotonic() - self._logged >= LOG_SECONDS:
            self._logged = time.monotonic()
            print(f"{done} of {whole} {self._unit}{more}{left}", file=sys.stderr, flush=True)
        if self._wanted and self._drawing is None and done < whole:
            self._drawing = Tqdm(done, whole, self._unit) if self._has_tqdm else Signs(whole, self._unit)
        if self._drawing is not None:
            self._drawing.draw(done, more, left)

    def end(self) -> None:
        """End the line of the bar, if one was drawn."""
        if self._drawing is not None:
            self._drawing.close()
            self._drawing = None


def format_duration(seconds: float) -> str:
    """Return a duration as 1 h 05 min, 3 min 20 s or 7 s."""
    whole = round(seconds)
    if whole >= 3_600:
        return f"{whole // 3_600} h {whole % 3_600 // 60:02} min"
    return f"{whole // 60} min {whole % 60:02} s" if whole >= 60 else f"{whole} s"
