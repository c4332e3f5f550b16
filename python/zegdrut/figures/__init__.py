"""Measure runs: travel times, delay, vehicle hours, lost demand, over one day or many. `table` lists all figures."""
from .days import run_over_days
from .delay_by_car import compare_delays, to_vehicle_hours
from .lost_demand import compute_demands
from .simulation import RoadRun, read_counts, read_run, simulate_days
from .table import (
    FREEWAY, Figure, FigureRow, Mean, Of, Value, average_days, choose, compare, compare_roads, list_figures,
    list_means, measure_day, measure_roads, pair_roads, sort_inlets)
from .trips import TravelTime, Trips, Window, compute_travel_times, compute_vehicle_hours, count_admitted_cars

__all__ = [
    "FREEWAY", "Figure", "FigureRow", "Mean", "Of", "RoadRun", "TravelTime", "Trips", "Value", "Window",
    "average_days", "choose", "compare", "compare_delays", "compare_roads", "compute_demands",
    "compute_travel_times", "compute_vehicle_hours", "count_admitted_cars", "list_figures", "list_means",
    "measure_day", "measure_roads", "pair_roads", "read_counts", "read_run", "run_over_days", "simulate_days",
    "sort_inlets", "to_vehicle_hours"]
