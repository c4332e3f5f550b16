"""Talk to the program road_lab: its process, its lines, and the objects that they stand for."""
from .refusal_reasons import Reasons
from .road_rows import count_cars
from .scripts import Script, read_script

__all__ = [
    "Reasons", "Script", "count_cars", "read_script"]
