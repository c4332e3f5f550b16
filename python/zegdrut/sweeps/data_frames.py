"""Turn the rows of a sweep into a data frame, into an array with named dimensions, and into a netCDF file."""
from __future__ import annotations

import math
from pathlib import Path
from typing import TYPE_CHECKING, Mapping, Sequence

from ..base.errors import Fault
from .about import About
from .results import Column, Row, Series, Value, make_identifier

if TYPE_CHECKING:
    import pandas
    import xarray

KEYS = ("seed", "model")
"""The columns of a table that are neither parameters nor figures."""


def make_frame(rows: Sequence[Row], columns: Mapping[str, Column]) -> pandas.DataFrame:
    """Return rows as a data frame, whose columns have identifiers as names. `attrs` has their units. ImportError: pandas is missing."""
    try:
        import pandas
    except ImportError:
        raise ImportError("pandas is not installed: on Debian run `apt install python3-pandas`, else `pip install pandas`") from None
    frame = pandas.DataFrame([{make_identifier(name): value.values if isinstance(value, Series) else value for name, value in row.items()}
                              for row in rows])
    frame.attrs["units"] = {make_identifier(name): column.unit for name, column in columns.items() if column.unit}
    return frame


def make_dataset(names: Sequence[str], rows: Sequence[Row], about: About | None) -> xarray.Dataset:
    """Return figures as arrays over the parameters and the seed, and over the axes of a series.

    A run that is missing is NaN, or an empty string. Units are attributes, and so is what made the table.
    ImportError: xarray is missing. Fault: a series does not have the same shape in all rows.
    """
    try:
        import numpy
        import xarray
    except ImportError:
        raise ImportError("xarray is not installed: on Debian run `apt install python3-xarray`, else `pip install xarray`") from None
    columns = about.columns if about else {}
    dimensions = [*names, "seed"]
    values = {name: list(dict.fromkeys(row[name] for row in rows)) for name in dimensions}
    places = {name: {value: place for place, value in enumerate(found)} for name, found in values.items()}
    size = tuple(len(found) for found in values.values())
    where = [tuple(places[name][row[name]] for name in dimensions) for row in rows]
    axes: dict[str, int] = {}
    found: dict[str, tuple[list[str], object, dict[str, str]]] = {}
    for name in rows[0] if rows else ():
        if name in dimensions or name in KEYS:
            continue
        extra, shape = find_axes(name, [row[name] for row in rows], axes)
        is_text = any(isinstance(row[name], str) for row in rows)
        array = numpy.full(size + shape, "" if is_text else math.nan, dtype=object if is_text else float)
        for place, row in zip(where, rows):
            value = row[name]
            if value is not None:
                array[place] = value.values if isinstance(value, Series) else value
        whole = not is_text and not shape and len(rows) == array.size and all(isinstance(row[name], int) for row in rows)
        found[make_identifier(name)] = ([*map(make_identifier, dimensions), *extra], array.astype(numpy.int64) if whole else
                                        array.astype(str) if is_text else array, describe_column(name, columns))
    coordinates = {make_identifier(name): (make_identifier(name), [str(one) for one in one_of] if any(isinstance(one, str) for one in one_of)
                                           else one_of, describe_column(name, columns)) for name, one_of in values.items()}
    return xarray.Dataset(found, coordinates, describe_table(about) if about else {})


def find_axes(name: str, values: Sequence[Value], axes: dict[str, int]) -> tuple[list[str], tuple[int, ...]]:
    """Return the axes of a figure and their lengths, and note them. Fault: they differ between runs or figures."""
    series = [value for value in values if isinstance(value, Series)]
    shapes = {(one.axes, one.shape()) for one in series}
    if not shapes:
        return [], ()
    (given, shape), *others = shapes
    extra = list(map(make_identifier, given))
    wrong = next((axis for axis, length in zip(extra, shape) if axes.setdefault(axis, length) != length), None)
    if others or wrong:
        raise Fault(f"{name} does not have the same length in all rows, or as other figures along {wrong or extra[0]}: give the axis a different "
                    "name, or fill the series up with NaN")
    return extra, shape


def describe_column(name: str, columns: Mapping[str, Column]) -> dict[str, str]:
    """Return the attributes of a column: its own name, and its unit if there is one."""
    unit = columns[name].unit if name in columns else ""
    return {"long_name": name, **({"units": unit} if unit else {})}


def describe_table(about: About) -> dict[str, str]:
    """Return what made a table, as attributes."""
    program = {f"program_{name}": str(value) for name, value in about.program.items() if value is not None}
    return {**program, "mark": about.mark, "model": about.model or "", "zegdrut": about.zegdrut, "zegdrut_text": about.parts.get("zegdrut", ""),
            "python": about.python, "host": about.host, "begun": about.begun, "ended": about.ended or "", "command": " ".join(about.command)}


def write_netcdf(data: xarray.Dataset, path: Path | str) -> None:
    """Write arrays to a netCDF file. ImportError: neither netCDF4 nor scipy is installed."""
    try:
        data.to_netcdf(path)
    except (ImportError, ValueError) as fault:
        if "netCDF4" not in str(fault) and "scipy" not in str(fault) and "netcdf" not in str(fault).lower():
            raise
        raise ImportError("netCDF4 is not installed: on Debian run `apt install python3-netcdf4`, else `pip install netCDF4`") from None
