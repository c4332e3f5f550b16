"""Describe roads as engineers do: freeways in km, demands in cars per hour, clock times, controllers."""
from .capacity import find_capacity
from .clock import Clock, InvalidTime
from .control import Controller, RampMeter, View, run_control
from .demand import Admission, BeyondCapacity, Drivers, Inlet, Supply, convert_demands, count_demand, measure_admission
from .freeway_files import FIGURES, Figures, Section, Stalled
from .road_in_cells import make_road, measure_chances
from .road_scripts import make_script

__all__ = [
    "Admission", "BeyondCapacity", "Clock", "Controller", "Drivers", "FIGURES", "Figures", "Inlet", "InvalidTime",
    "RampMeter", "Section", "Stalled", "Supply", "View", "convert_demands", "count_demand", "find_capacity",
    "make_road", "make_script", "measure_admission", "measure_chances", "run_control"]
