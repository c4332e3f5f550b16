"""Give what all other folders use: units, intervals of means, errors, checks of arguments, types of lines."""
from .intervals import Estimate, estimate_mean, estimate_paired
from .units import KMH, METRES, Units, to_cells, to_chance, to_limit, to_steps

__all__ = [
    "Estimate", "KMH", "METRES", "Units", "estimate_mean", "estimate_paired", "to_cells", "to_chance", "to_limit",
    "to_steps"]
