"""Run a model over many points and seeds, on all processors or by an executor, and write tables of results that say what made them."""
from .about import About
from .engine import NoWorker
from .marks import Mark, OtherMark, Unknown, make_mark
from .results import Column, Row, Series, Value
from .runs import Flows, Measure, Model, Points, Run, list_points, make_grid, run_one, run_point, runs
from .sweeps import Failure, Progress, Sweep, add_result, compute_means, list_failures, load, sweep

__all__ = [
    "About", "Column", "Failure", "Flows", "Mark", "Measure", "Model", "NoWorker", "OtherMark", "Points",
    "Progress", "Row", "Run", "Series", "Sweep", "Unknown", "Value", "add_result", "compute_means", "list_failures",
    "list_points", "load", "make_grid", "make_mark", "run_one", "run_point", "runs", "sweep"]
