"""Simulate freeways whose past can be edited, one by one or many side by side.

    from zegdrut import Plan, RoadLab

    plan = Plan(length=40, inlets=[(0, 65_536)], zones=[(3, 0)], detectors=[28])
    with RoadLab(plan) as lab:
        lab.advance("A", 40)
        lab.edit("A", ("block", 24), step=12, value=1)
        print("\\n".join(lab.diagram("A", 12, 40)))

Units are cells and steps; usually a cell is 7.5 m and a step 1 s. Chances are whole numbers of 1/65,536.
"""
from .base.errors import Ended, Fault, LabBroken, LabCancelled, LabError, LabTimeout, Refused
from .program.lab import RoadLab
from .program.plan import Plan
from .program.programs import NoProgram, program_path
from .program.records import Car, Count, Crowd, Edit, Head, Kind, Lost, Object, Stamp, find_lost
from .program.road_rows import BLOCKED, EMPTY, Traffic, to_array, measure_traffic

__all__ = ["BLOCKED", "Car", "Count", "Crowd", "EMPTY", "Edit", "Ended", "Fault", "Head", "Kind", "LabBroken", "LabCancelled", "LabError",
           "LabTimeout", "Lost", "NoProgram", "Object", "Plan", "Refused", "RoadLab", "Stamp", "Traffic", "find_lost", "measure_traffic",
           "program_path", "to_array"]
