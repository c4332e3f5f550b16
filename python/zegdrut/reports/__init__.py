"""Write reports, pictures and tables."""
from .report_tables import Side, make_tables, run_sides

__all__ = [
    "Side", "make_tables", "run_sides"]
