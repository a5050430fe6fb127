"""A union as a map, in HTML for a notebook: the SVG of its outline, with a line below. No network and no script."""

from __future__ import annotations

from html import escape
from math import ceil, cos, floor, log10, radians
from pathlib import Path
from typing import Any, Iterator, NamedTuple

import numpy
from s2union import CellUnion, TooManyCellsError, levels

from .around import bounds
from .outlines import area, outline

MOST_CELLS = 5000  # that are drawn
MOST_PATH = 140_000  # characters of the outline
WIDTH, HEIGHT = 640, 400  # the most, in pixels
PIXEL = 10  # in units of a path, which are whole numbers
AIR = 0.08  # around the union, as a part of its longer side
HALF = 180  # degrees from west to east, above which the map is one of the world
APART = 80, 50  # pixels between lines of longitude and of latitude, at least, so that their words have room
STEPS = 2, 5, 10, 15, 30, 45  # in degrees between lines, above 1
LAND = Path(__file__).parent / "land.cells"  # which tools/library and the packagers put there
LAND_LEVELS = (120, 6), (60, 7), (20, 8)  # degrees from which on there is land, and the level of its cells
MARGIN = 200  # units at the edges, where words have no room
BLUE, GRAY = "#2f81f7", "#808080"  # on dark and light grounds; words have the color of the page's text
FILL = f"fill='{BLUE}' fill-opacity='0.35' fill-rule='evenodd'"
BORDER = f"stroke='{BLUE}' stroke-width='12' stroke-linejoin='round' stroke-linecap='round'"


class View(NamedTuple):
    """The degrees that a map shows, where the east may be above 180 and the west below -180, and pixels for each."""

    west: float
    south: float
    east: float
    north: float
    x: float
    y: float

    def width(self) -> int:
        return round((self.east - self.west) * self.x)

    def height(self) -> int:
        return round((self.north - self.south) * self.y)

    def placed(self, positions: Any) -> Any:
        """Positions in units of the map. Those farther outside than it is large are brought nearer."""
        size = PIXEL * numpy.array([WIDTH, HEIGHT])
        places = (positions - [self.west, self.north]) * [self.x * PIXEL, -self.y * PIXEL]
        return numpy.clip(numpy.rint(places), -size, 2 * size)


def view_of(union: CellUnion) -> View:
    """The union with air around it, between as high as wide and half as high; or the world."""
    west, south, east, north = bounds(union) or (-180, -90, 180, 90)
    east += 360 * (east < west)
    if east - west > HALF:
        return View(-180, -90, 180, 90, WIDTH / 360, WIDTH / 360)
    narrow = max(cos(radians((south + north) / 2)), 0.05)  # a degree of longitude, in degrees of latitude
    air = 2 * AIR * max((east - west) * narrow, north - south)
    wide, high = (east - west) * narrow + air, north - south + air
    wide, high = max(wide, high), max(high, wide / 2)
    scale = min(WIDTH / wide, HEIGHT / high)
    x, y = (west + east) / 2, (south + north) / 2
    half = min(wide / narrow / 2, HALF)
    return View(x - half, max(y - high / 2, -90), x + half, min(y + high / 2, 90), scale * narrow, scale)


def drawn(union: CellUnion, level: int) -> tuple[View, str, int | None]:
    """The map of a union whose deepest level is given, its outline, and the level of the cells, if it had to be made
    simpler."""
    made, at = (union, None) if len(union) <= MOST_CELLS else coarser(union, level - 1)
    while True:
        view = view_of(made)
        shape = painted(view, outline(made))
        if len(shape) <= MOST_PATH:
            return view, shape, at
        made, at = coarser(union, (level if at is None else at) - 1)


def coarser(union: CellUnion, level: int) -> tuple[CellUnion, int]:
    """The covering by the deepest cells up to a level that is small enough, and its level."""
    while True:
        try:
            return union.outer(level, most=MOST_CELLS), level
        except TooManyCellsError:
            level -= 1


def copies(view: View, shape: dict[str, Any]) -> Iterator[Any]:
    """The rings of an outline that the map shows, where they are on it: it may go over the date line."""
    for ring in (numpy.array(ring) for polygon in shape["coordinates"] for ring in polygon):
        (west, south), (east, north) = ring.min(0), ring.max(0)
        for turn in (-360, 0, 360):
            if view.west < east + turn and west + turn < view.east and south < view.north and view.south < north:
                yield ring, ring + [turn, 0]


def painted(view: View, shape: dict[str, Any]) -> str:
    """The outline of a union, filled. Its border is without the sides by which the map of the world closes it."""
    rings = [*copies(view, shape)]
    area = "".join(steps(view.placed(ring)) for _, ring in rings)
    if not any(at_edge(own).any() for own, _ in rings):
        return f"<path d='{area}' {FILL} {BORDER}/>"
    border = "".join(steps(view.placed(ring), at_edge(own)) for own, ring in rings)
    return f"<path d='{area}' {FILL}/><path d='{border}' fill='none' {BORDER}/>"


def steps(places: Any, hidden: Any = None) -> str:
    """One ring of a path, which ends where it begins, without places that are the same in whole numbers. Or a line, if
    it is said which of its sides are hidden."""
    moves = numpy.diff(places, axis=0).astype(int).tolist()
    begin = "M{:.0f} {:.0f}".format(*places[0])
    if hidden is not None:
        return begin + "".join(f"{'lm'[is_hidden]}{x} {y}" for (x, y), is_hidden in zip(moves, hidden.tolist()))
    words = [f"{x} {y}" for x, y in moves[:-1] if x or y]
    return f"{begin}{'l' * bool(words)}{' '.join(words)}z"


def at_edge(ring: Any) -> Any:
    """Whether each side of a ring lies on the date line or ends at a pole's edge of the map."""
    begin, end = ring[:-1], ring[1:]
    return ((abs(begin) == [180, 90]) & (begin == end)).any(axis=1)


def step_of(wanted: float) -> float:
    """Degrees between two lines that are so far apart, or a bit more, and a round number."""
    if wanted > 1:
        return next((step for step in STEPS if step >= wanted), STEPS[-1])
    power = 10.0 ** floor(log10(wanted))
    return next((step * power for step in (1, 2, 5) if step * power >= wanted), 10 * power)


def in_degrees(number: float, step: float, ends: str) -> str:
    """A longitude or a latitude in words, with as many digits as the step has."""
    places = max(0, -floor(log10(step * 1.001)))
    shown = f"{abs(number):.{places}f}"
    end = "" if float(shown) in (0, 180) else f" {ends[number < 0]}"
    return f"{shown}°{end}"


def lines(view: View) -> Iterator[str]:
    """The lines of longitude and latitude, with their degrees at the lower and the left edge."""
    wide, high = view.width() * PIXEL, view.height() * PIXEL
    for number, step in places_of(view.west, view.east, APART[0] / view.x):
        x = round((number - view.west) * view.x * PIXEL)
        anchor = "start" if x < MARGIN else "end" if x > wide - MARGIN else "middle"
        yield line(f"M{x} 0V{high}", x, high - 40, anchor, in_degrees((number + 180) % 360 - 180, step, "EW"))
    for number, step in places_of(view.south, view.north, APART[1] / view.y):
        y = round((view.north - number) * view.y * PIXEL)
        words = in_degrees(number, step, "NS") if MARGIN < y < high - MARGIN else ""
        yield line(f"M0 {y}H{wide}", 40, y - 30, "start", words)


def places_of(first: float, last: float, apart: float) -> Iterator[tuple[float, float]]:
    """Where there are lines between two degrees, and how far they are from each other."""
    step = step_of(apart)
    return ((place * step, step) for place in range(ceil(first / step), floor(last / step) + 1))


def line(way: str, x: int, y: int, anchor: str, words: str) -> str:
    """A line of the grid, and the words beside it, if there are any."""
    text = f"<text x='{x}' y='{y}' text-anchor='{anchor}'>{escape(words)}</text>" if words else ""
    return f"<path d='{way}' fill='none' stroke='{GRAY}' stroke-opacity='0.4' stroke-width='8'/>{text}"


def land_below(view: View) -> str:
    """The land of the world below a map that is wide enough, if it is there."""
    level = next((level for least, level in LAND_LEVELS if view.east - view.west > least), None)
    if level is None or not LAND.exists():
        return ""
    shape = outline(CellUnion.from_bytes(LAND.read_bytes()).outer(level))
    way = "".join(steps(view.placed(ring)) for _, ring in copies(view, shape))
    return f"<path d='{way}' fill='{GRAY}' fill-opacity='0.25' fill-rule='evenodd'/>"


def words_of(union: CellUnion, least: int, deepest: int, at: int | None) -> str:
    """The line below a map."""
    cells = f"{len(union):,} cell{'s' * (len(union) != 1)}"
    which = f"of level {least}" if least == deepest else f"of levels {least} to {deepest}"
    size = area(union)
    measure = f"{size:,.0f} km²" if size >= 1000 else f"{size:.3g} km²"
    said = f"; simplified on the map, to cells of level {at}" if at is not None else ""
    return f"{cells} {which}, {measure}{said}"


def html_of(union: CellUnion) -> str:
    """The map of a union and a line about it, as HTML."""
    found = levels(numpy.asarray(union)).tolist() or [0]
    least, deepest = min(found), max(found)
    view, shape, at = drawn(union, deepest)
    words = escape(words_of(union, least, deepest, at) if len(union) else "no cells")
    wide, high = view.width(), view.height()
    frame = f"<rect width='{wide * PIXEL}' height='{high * PIXEL}' fill='none' stroke='{GRAY}' stroke-width='20'/>"
    return (f"<div><svg xmlns='http://www.w3.org/2000/svg' role='img' aria-label='{words}' width='{wide}' "
            f"height='{high}' viewBox='0 0 {wide * PIXEL} {high * PIXEL}' style='max-width:100%;height:auto' "
            f"font-family='sans-serif' font-size='110' fill='currentColor'>{frame}{land_below(view)}{shape}"
            f"{''.join(lines(view))}</svg><div>{words}</div></div>")
