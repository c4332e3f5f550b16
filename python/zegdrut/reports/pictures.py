"""Draw line charts and space-time diagrams as SVG, with the standard library only.

    chart = Chart("Flow at km 2", "cars per hour", clock, 0, 7_200)
    chart.add(Line("measured", points, MEASURED))
    svg = stack_drawings([chart.draw(), ..])
"""
from __future__ import annotations

import base64
import math
import struct
import zlib
from dataclasses import dataclass, field
from html import escape
from typing import Callable, NamedTuple, Sequence

from ..roads.clock import Clock

MEASURED, SIMULATED, BEFORE, AFTER = "#000000", "#d55e00", "#0072b2", "#d55e00"
"""Colours that also differ for colour-blind readers."""
ROADS = (BEFORE, AFTER, "#009e73", "#cc79a7")
"""The colours of several roads."""
INLETS = ("#000000", "#0072b2", "#d55e00", "#009e73", "#cc79a7")
"""The colours of the demands of inlets, from km 0 on."""
WIDTH, HEIGHT = 640, 190
LEFT, RIGHT, TOP, BOTTOM = 58, 12, 26, 34
SPEEDS = ((0, (120, 0, 30)), (27, (215, 48, 39)), (54, (252, 141, 89)), (81, (254, 224, 139)), (108, (145, 207, 96)), (135, (26, 152, 80)))
"""The colour scale of all space-time diagrams: km/h, and red, green and blue."""
BAND = "95 % interval of the mean"
LETTER = 7.5
"""The width of a letter of a title or legend, at the most."""
NARROW = 500
"""The width below which a chart has its legend below its title, so that charts next to each other look alike."""
LEAST_CLOSURE = 6.0
"""The smallest height and width at which a closure is drawn in a space-time diagram, so that it is visible."""
NO_CAR = (245, 245, 245)
NO_DATA = math.nan
"""The value of a piece of a measured space-time diagram for which there are no data. It is hatched."""
HATCH = ('<pattern id="no-data" width="6" height="6" patternUnits="userSpaceOnUse" patternTransform="rotate(45)"><rect width="6" height="6" '
         'fill="#fff"/><rect width="2" height="6" fill="#888"/></pattern>')
BLOCKED = (0, 0, 0)
Colour = tuple[int, int, int]

Point = tuple[float, "float | None"]
"""A step, and a value or None."""


class Line(NamedTuple):
    """A line of a chart. `low` and `high` are the ends of an interval at each point, drawn as a band."""

    name: str
    points: Sequence[Point]
    colour: str
    low: Sequence[float | None] | None = None
    high: Sequence[float | None] | None = None
    is_dashed: bool = False


def find_colour(kmh: float) -> Colour:
    """Return the colour of a speed, interpolated on the scale."""
    for (low, first), (high, second) in zip(SPEEDS, SPEEDS[1:]):
        if kmh <= high:
            part = max(kmh - low, 0) / (high - low)
            red, green, blue = (round(a + part * (b - a)) for a, b in zip(first, second))
            return red, green, blue
    return SPEEDS[-1][1]


def choose_tick(span: float, most: int) -> float:
    """Return a step of 1, 2 or 5 times a power of ten that cuts a span into at most `most` parts."""
    raw = max(span, 1e-9) / most
    power = 10.0 ** math.floor(math.log10(raw))
    return next(float(one * power) for one in (1, 2, 5, 10) if one * power >= raw * 0.999)


def list_ticks(low: float, high: float, most: int) -> list[float]:
    """Return round values from one value to another, as the marks of an axis."""
    step = choose_tick(high - low, most)
    return [round(number * step, 12) for number in range(math.ceil(low / step - 1e-9), math.floor(high / step + 1e-9) + 1)]


def list_time_ticks(first: int, last: int, most: int = 8) -> list[int]:
    """Return the steps of the marks of a time axis, whole minutes apart."""
    span = last - first
    every = next((one for one in (60, 120, 300, 600, 900, 1_800, 3_600, 7_200, 10_800, 21_600, 43_200) if span / one <= most), 86_400)
    return [step for step in range(first, last + 1) if (step - first) % every == 0] if span < 200_000 else [first, last]


def draw_times(clock: Clock, first: int, last: int, offset: int, x: Callable[[float], float], bottom: int) -> list[str]:
    """Return the marks of a time axis as SVG."""
    parts = []
    for date in list_time_ticks(first, last):
        anchor = "end" if last - date < (last - first) / 30 else "middle"
        parts.append(f'<line x1="{x(date):.1f}" x2="{x(date):.1f}" y1="{bottom}" y2="{bottom + 4}" stroke="#333"/>'
                     f'<text x="{x(date) + (8 if anchor == "end" else 0):.1f}" y="{bottom + 16}" text-anchor="{anchor}">'
                     f'{clock.to_text(date - offset)}</text>')
    return parts


@dataclass
class Chart:
    """A chart of lines over the time of day, from one step to another."""

    title: str
    unit: str
    clock: Clock
    first: int
    last: int
    lines: list[Line] = field(default_factory=list)
    top: float | None = None
    """What the chart shows at least."""
    offset: int = 0
    """The step of the run at which the clock begins."""

    def add(self, line: Line) -> None:
        """Add a line."""
        self.lines.append(line)

    def draw(self, width: int = WIDTH, height: int = HEIGHT) -> str:
        """Return the chart as SVG."""
        values = [value for line in self.lines for part in ([value for _, value in line.points], line.high or ())
                  for value in part if value is not None]
        most = max([self.top or 0.0, *values]) or 1.0
        step = choose_tick(most, 4)
        top = math.ceil(most / step - 1e-9) * step
        room = width - LEFT - RIGHT - LETTER * (len(self.title) + 3)
        has_own_line = width < NARROW or LETTER * sum(len(name) + 4 for name, _, _ in self.list_names()) > room
        ceiling = TOP + 14 * has_own_line
        inner, depth = width - LEFT - RIGHT, height - ceiling - BOTTOM

        def x(date: float) -> float:
            return LEFT + inner * (date - self.first) / (self.last - self.first)

        def y(value: float) -> float:
            return ceiling + depth * (1 - value / top)
        parts = [f'<svg xmlns="http://www.w3.org/2000/svg" class="chart" viewBox="0 0 {width} {height}" width="{width}" height="{height}" '
                 'font-family="sans-serif" font-size="11">', f'<text x="{LEFT}" y="14" font-weight="bold">{escape(self.title)}</text>',
                 f'<text x="{width - RIGHT}" y="{14 + 14 * has_own_line}" text-anchor="end">{self.legend()}</text>',
                 f'<text transform="translate(12 {ceiling + depth / 2}) rotate(-90)" text-anchor="middle">{escape(self.unit)}</text>']
        for number in range(round(top / step) + 1):
            value = number * step
            parts.append(f'<line x1="{LEFT}" x2="{width - RIGHT}" y1="{y(value):.1f}" y2="{y(value):.1f}" stroke="#ddd"/>'
                         f'<text x="{LEFT - 5}" y="{y(value) + 4:.1f}" text-anchor="end">{value:,.10g}</text>')
        parts += draw_times(self.clock, self.first, self.last, self.offset, x, ceiling + depth)
        for line in self.lines:
            parts += draw_line(line, x, y)
        parts.append(f'<rect x="{LEFT}" y="{ceiling}" width="{inner}" height="{depth}" fill="none" stroke="#333"/></svg>')
        return "".join(parts)

    def list_names(self) -> list[tuple[str, str, str]]:
        """Return the entries of the legend: name, colour and mark of each line, and of the bands."""
        found = [(line.name, line.colour, "- - " if line.is_dashed else "— ") for line in self.lines]
        return [*found, *([(BAND, "#666", "▒ ")] if any(line.low is not None for line in self.lines) else [])]

    def legend(self) -> str:
        """Return the names of the lines in their colours. The mark of the bands has the colours of all bands."""
        bands = "".join(f'<tspan fill="{line.colour}" fill-opacity="0.4">█</tspan>' for line in self.lines if line.low is not None)
        names = [(name, colour, mark) for name, colour, mark in self.list_names() if name != BAND]
        found = [f'<tspan fill="{colour}">{mark}{escape(name)}</tspan>' for name, colour, mark in names]
        return "&#160;&#160; ".join([*found, *([f'{bands} <tspan fill="#333">{BAND}</tspan>'] if bands else [])])


def draw_line(line: Line, x: Callable[[float], float], y: Callable[[float], float]) -> list[str]:
    """Return a line and its band as SVG. The line is interrupted at missing values."""
    parts = []
    if line.low is not None and line.high is not None:
        ends = [(date, low, high) for (date, _), low, high in zip(line.points, line.low, line.high) if low is not None and high is not None]
        if ends:
            around = [f"{x(date):.1f},{y(max(low, 0)):.1f}" for date, low, _ in ends]
            around += [f"{x(date):.1f},{y(high):.1f}" for date, _, high in reversed(ends)]
            parts.append(f'<polygon points="{" ".join(around)}" fill="{line.colour}" fill-opacity="0.2"/>')
    piece: list[str] = []
    pieces = [piece]
    for date, value in line.points:
        if value is None:
            piece = []
            pieces.append(piece)
        else:
            piece.append(f"{x(date):.1f},{y(value):.1f}")
    dashes = ' stroke-dasharray="5 3"' if line.is_dashed else ""
    for piece in pieces:
        if len(piece) == 1:
            cx, cy = piece[0].split(",")
            parts.append(f'<circle cx="{cx}" cy="{cy}" r="1.6" fill="{line.colour}"/>')
        elif piece:
            parts.append(f'<polyline points="{" ".join(piece)}" fill="none" stroke="{line.colour}" stroke-width="1.6"{dashes}/>')
    return parts


# Space-time diagrams

def encode_png(rows: Sequence[Sequence[Colour]]) -> bytes:
    """Return an image of rows of pixels, the first row at the top, as PNG."""
    def chunk(kind: bytes, data: bytes) -> bytes:
        return struct.pack(">I", len(data)) + kind + data + struct.pack(">I", zlib.crc32(kind + data))
    packed = b"".join(b"\0" + bytes(part for colour in row for part in colour) for row in rows)
    header = struct.pack(">IIBBBBB", len(rows[0]), len(rows), 8, 2, 0, 0, 0)
    return b"\x89PNG\r\n\x1a\n" + chunk(b"IHDR", header) + chunk(b"IDAT", zlib.compress(packed, 9)) + chunk(b"IEND", b"")


Field = Sequence[Sequence["float | None"]]
"""Speeds in km/h for each period and each piece of the road, from km 0 on; None without a car, and NO_DATA without data."""


def draw_field(speeds: Field, title: str, clock: Clock, first: int, last: int, kilometres: float, width: int = WIDTH,
               height: int = 230, offset: int = 0, closed: Sequence[tuple[int, int, float, float]] = (), ramps: Sequence[float] = (),
               detectors: Sequence[float] = (), begin: float = 0.0) -> str:
    """Return a space-time diagram as SVG: time to the right, km upwards, speeds in the colour scale, from km `begin` to `kilometres`.

    closed: closures as (from step, to step, from km, to km), drawn in black.
    ramps, detectors: km that are marked at the right edge."""
    def y(km: float) -> float:
        return TOP + depth * (kilometres - km) / (kilometres - begin)
    columns = [[NO_CAR if speed is None or math.isnan(speed) else find_colour(speed) for speed in reversed(one)] for one in speeds]
    rows: list[list[Colour]] = [list(row) for row in zip(*columns)]
    inner, depth = width - LEFT - RIGHT, height - TOP - BOTTOM
    data = base64.b64encode(encode_png(rows)).decode()
    parts = [f'<svg xmlns="http://www.w3.org/2000/svg" class="field" viewBox="0 0 {width} {height}" width="{width}" height="{height}" '
             f'font-family="sans-serif" font-size="11"><text x="{LEFT}" y="14" font-weight="bold">{escape(title)}</text>'
             f'<image x="{LEFT}" y="{TOP}" width="{inner}" height="{depth}" preserveAspectRatio="none" '
             f'style="image-rendering: pixelated" href="data:image/png;base64,{data}"/>'
             f'<text transform="translate(12 {TOP + depth / 2}) rotate(-90)" text-anchor="middle">km</text>']
    parts += draw_times(clock, first, last, offset, lambda date: LEFT + inner * (date - first) / (last - first), TOP + depth)
    step = choose_tick(kilometres - begin, 5)
    marks = [number * step for number in range(math.ceil(begin / step), math.floor(kilometres / step) + 1)]
    for km in [*(one for one in marks if kilometres - one > step / 3), kilometres]:
        parts.append(f'<line x1="{LEFT - 4}" x2="{LEFT}" y1="{y(km):.1f}" y2="{y(km):.1f}" stroke="#333"/>'
                     f'<text x="{LEFT - 6}" y="{y(km) + 4:.1f}" text-anchor="end">{km:.3g}</text>')
    parts += draw_no_data(speeds, inner, depth)
    for *dates, low, high in closed:
        left, right = (LEFT + inner * (min(max(date, first), last) - first) / (last - first) for date in dates)
        up, down = y(high), y(low)
        if right > left:
            middle, tall, wide = (up + down) / 2, max(down - up, LEAST_CLOSURE), max(right - left, LEAST_CLOSURE)
            parts.append(f'<rect class="closure" x="{left:.1f}" y="{middle - tall / 2:.1f}" width="{wide:.1f}" height="{tall:.1f}" fill="#000" '
                         'stroke="#fff" stroke-width="1.2"/>')
    right = width - RIGHT
    parts += [draw_ramp(right, y(km)) for km in ramps]
    parts += [draw_detector(right, y(km)) for km in detectors]
    parts.append(f'<rect x="{LEFT}" y="{TOP}" width="{inner}" height="{depth}" fill="none" stroke="#333"/></svg>')
    return "".join(parts)


def draw_ramp(x: float, y: float) -> str:
    """Return the mark of an on-ramp at the right edge of a diagram, as SVG."""
    return f'<path class="ramp" d="M{x + 2:.1f} {y:.1f}l9 -5v10z" fill="#000"/>'


def draw_detector(x: float, y: float) -> str:
    """Return the mark of a detector at the right edge of a diagram, as SVG."""
    return f'<path class="detector" d="M{x - 6:.1f} {y:.1f}h12" stroke="#000" stroke-width="2"/>'


def draw_no_data(speeds: Field, inner: int, depth: int) -> list[str]:
    """Return a hatched rectangle for each period and each run of pieces without data, as SVG."""
    parts = []
    for place, column in enumerate(speeds):
        is_missing = [speed is not None and math.isnan(speed) for speed in column]
        begins = [piece for piece, is_so in enumerate(is_missing) if is_so and not (piece and is_missing[piece - 1])]
        for begin in begins:
            end = next((piece for piece in range(begin, len(column)) if not is_missing[piece]), len(column))
            parts.append(f'<rect class="no-data" x="{LEFT + inner * place / len(speeds):.1f}" y="{TOP + depth * (1 - end / len(column)):.1f}" '
                         f'width="{inner / len(speeds):.1f}" height="{depth * (end - begin) / len(column):.1f}" fill="url(#no-data)"/>')
    return [HATCH, *parts] if parts else []


def draw_scale(width: int = WIDTH, has_no_data: bool = False, has_ramps: bool = False, has_detectors: bool = False) -> str:
    """Return the colour scale as SVG, and what else the diagrams may have: pieces without data, and marks of ramps and detectors."""
    steps = 68
    inner = (width - LEFT - RIGHT) * 0.6
    parts = [f'<svg xmlns="http://www.w3.org/2000/svg" class="scale" viewBox="0 0 {width} 34" width="{width}" height="34" font-family="sans-serif" '
             f'font-size="11"><text x="{LEFT + inner + 12:.0f}" y="12">km/h (white: no car, black: closed)</text>']
    x = LEFT + inner + 18
    if has_no_data:
        parts.append(f'{HATCH}<rect x="{x:.0f}" y="18" width="22" height="11" fill="url(#no-data)" stroke="#888" stroke-width="0.5"/>'
                     f'<text x="{x + 27:.0f}" y="28">no data</text>')
        x += 80
    for is_drawn, draw, name in ((has_ramps, draw_ramp, "on-ramp"), (has_detectors, draw_detector, "detector")):
        if is_drawn:
            parts.append(f'{draw(x + 4, 24)}<text x="{x + 18:.0f}" y="28">{name}</text>')
            x += 72
    for number in range(steps):
        red, green, blue = find_colour(135 * (number + 0.5) / steps)
        parts.append(f'<rect x="{LEFT + inner * number / steps:.1f}" y="2" width="{inner / steps + 0.5:.1f}" height="12" '
                     f'fill="rgb({red},{green},{blue})"/>')
    for kmh, _ in SPEEDS:
        parts.append(f'<text x="{LEFT + inner * kmh / 135:.1f}" y="28" text-anchor="middle">{kmh}</text>')
    return "".join([*parts, "</svg>"])


def stack_drawings(drawn: Sequence[str], width: int = WIDTH) -> str:
    """Stack drawings in one SVG."""
    total, parts = 0, []
    for one in drawn:
        height = int(one.split('height="', 1)[1].split('"', 1)[0])
        parts.append(one.replace("<svg ", f'<svg y="{total}" ', 1))
        total += height
    return (f'<svg xmlns="http://www.w3.org/2000/svg" viewBox="0 0 {width} {total}" width="{width}" height="{total}">'
            f'<rect width="{width}" height="{total}" fill="#fff"/>' + "".join(parts) + "</svg>\n")


def make_speed_field(rows: Sequence[str], steps_a_piece: int, cells_a_piece: int) -> list[list[float | None]]:
    """Return the space-mean speed in km/h of each period and piece of the road: the sum of the speeds over the number of cars."""
    found: list[list[float | None]] = []
    for first in range(0, len(rows), steps_a_piece):
        sums = [[0, 0] for _ in range(-(-len(rows[0]) // cells_a_piece))]
        for row in rows[first:first + steps_a_piece]:
            for cell, sign in enumerate(row):
                if sign.isdigit():
                    one = sums[cell // cells_a_piece]
                    one[0] += 1
                    one[1] += int(sign)
        found.append([speeds / cars * 27 if cars else None for cars, speeds in sums])
    return found


def draw_points(title: str, names: tuple[str, str], points: Sequence[tuple[float, float, float]], best: tuple[float, float],
                width: int = WIDTH, height: int = 300) -> str:
    """Return points (x, y, error) as SVG, dark where the error is small, with a cross at the best."""
    inner, depth = width - LEFT - RIGHT, height - TOP - BOTTOM - 10
    sides = [(min([place[axis] for place in (*points, best)]), max([place[axis] for place in (*points, best)])) for axis in (0, 1)]
    (left, right), (low, high) = ((a, b if b > a else a + 1) for a, b in sides)
    errors = sorted(error for *_, error in points)
    least, most = errors[0], errors[len(errors) * 3 // 4]

    def x(value: float) -> float:
        return LEFT + inner * (value - left) / (right - left)

    def y(value: float) -> float:
        return TOP + depth * (1 - (value - low) / (high - low))
    parts = [f'<svg xmlns="http://www.w3.org/2000/svg" class="points" viewBox="0 0 {width} {height}" width="{width}" height="{height}" '
             f'font-family="sans-serif" font-size="11"><text x="{LEFT}" y="14" font-weight="bold">{escape(title)}</text>'
             f'<text x="{width - RIGHT}" y="14" text-anchor="end">dark: error {least:.2f}; light: {most:.2f} or more; cross: the result</text>'
             f'<text x="{LEFT + inner / 2}" y="{height - 8}" text-anchor="middle">{escape(names[0])}</text>'
             f'<text transform="translate(12 {TOP + depth / 2}) rotate(-90)" text-anchor="middle">{escape(names[1])}</text>']
    for value in list_ticks(left, right, 8):
        parts.append(f'<line x1="{x(value):.1f}" x2="{x(value):.1f}" y1="{TOP + depth}" y2="{TOP + depth + 4}" stroke="#333"/>'
                     f'<text x="{x(value):.1f}" y="{TOP + depth + 16}" text-anchor="middle">{value:.10g}</text>')
    for value in list_ticks(low, high, 6):
        parts.append(f'<line x1="{LEFT - 4}" x2="{LEFT}" y1="{y(value):.1f}" y2="{y(value):.1f}" stroke="#333"/>'
                     f'<text x="{LEFT - 6}" y="{y(value) + 4:.1f}" text-anchor="end">{value:.10g}</text>')
    for across, up, error in sorted(points, key=lambda one: -one[2]):
        part = min((error - least) / (most - least), 1.0) if most > least else 0.0
        red, green, blue = (round(dark + part * (light - dark)) for dark, light in ((8, 222), (48, 235), (107, 247)))
        parts.append(f'<circle cx="{x(across):.1f}" cy="{y(up):.1f}" r="5" fill="rgb({red},{green},{blue})" stroke="#999" stroke-width="0.4"/>')
    cross_x, cross_y = x(best[0]), y(best[1])
    parts.append(f'<path d="M{cross_x - 7:.1f} {cross_y:.1f}h14M{cross_x:.1f} {cross_y - 7:.1f}v14" stroke="#d55e00" stroke-width="2.5"/>'
                 f'<rect x="{LEFT}" y="{TOP}" width="{inner}" height="{depth}" fill="none" stroke="#333"/></svg>')
    return "".join(parts)
