"""Read measured counts, compare a road with them, and fit its drivers to them."""
from .calibration import Bounds, Search, calibrate
from .congestion import describe_jams, judge, list_segments, simulate_segments
from .counts_on_road import Measured, put_on_road
from .goodness_of_fit import (
    Model, compare_hours, compare_speeds, compute_geh, make_interval_records, make_model, simulate_days)
from .stations import Station, correct_counts, read_counts, read_stations

__all__ = [
    "Bounds", "Measured", "Model", "Search", "Station", "calibrate", "compare_hours", "compare_speeds",
    "compute_geh", "correct_counts", "describe_jams", "judge", "list_segments", "make_interval_records",
    "make_model", "put_on_road", "read_counts", "read_stations", "simulate_days", "simulate_segments"]
