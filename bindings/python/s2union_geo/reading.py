"""Shapes in GeoJSON, in WKB or of what has a __geo_interface__, as positions and rings."""

from __future__ import annotations

import difflib
import json
import os
import re
from array import array
from itertools import chain
from typing import Any, Callable, Iterable, NamedTuple

from s2union import ShapeError, _library

from .interrupts import look
from .places import MOST, NO_NUMBERS, number_of, range_of

MOST_BYTES = 2**28  # of a text or a file
MOST_POSITIONS = 1_000_000  # of all rings together
MOST_PARTS = 4_000_000  # of collections: one that has itself has no end of them
NO_LISTS = (str, bytes, dict)  # which have lengths and parts all the same
PARTS = {"FeatureCollection": "features", "GeometryCollection": "geometries"}
LINE = 2**64 - 1  # in the place of a polygon's number: a line or a point
KINDS = {several + one for several in ("", "Multi") for one in ("Point", "LineString", "Polygon")}
TYPES = {name.lower(): name for name in (*KINDS, *PARTS, "Feature")}
NO_WKT = "WKT isn't taken, but shapely.wkt.loads makes a shape of it"
IS_WKT = re.compile(rf"\s*(SRID=\d+;)?({'|'.join((*KINDS, 'GeometryCollection'))})\b", re.IGNORECASE).match


class Shape(NamedTuple):
    """The longitudes and latitudes of all positions; and of each ring or line where it ends and its polygon."""

    positions: array[float]
    rings: array[int]

    def add(self, line: Any, polygon: int) -> None:
        self.rings.extend((0, polygon))
        self.positions.extend(_positions_of(line, lambda: self.name(len(self.rings) // 2 - 1)))
        self.rings[-2] = len(self.positions) // 2
        self.look_at_size()

    def look_at_size(self) -> None:
        if len(self.positions) > 2 * MOST_POSITIONS:
            raise ValueError(f"there are more than {MOST_POSITIONS} positions")

    def name(self, ring: int) -> str:
        """What a ring or a line is called."""
        polygons = self.rings[1::2]
        if polygons[ring] == LINE:
            return f"line {ring}"
        return f"polygon {polygons[ring]}, ring {ring - polygons.index(polygons[ring])}"

    def place(self, ring: int, position: int) -> list[float]:
        begin = self.rings[2 * ring - 2] if ring else 0
        return self.positions[2 * (begin + position):2 * (begin + position) + 2].tolist()


def read_geojson(path: str | os.PathLike[str]) -> Any:
    """The GeoJSON of a file, for `covering` and what else takes shapes.

    .. versionadded:: 1.1

    Parameters
    ----------
    path : str or path
        A file of at most ``MOST_BYTES`` bytes. In a position the longitude comes first, then the latitude.

    Returns
    -------
    object
        The content of the file, as objects of Python.

    Raises
    ------
    ValueError
        The file is no JSON, or has more bytes.
    OSError
        The file can't be read.

    Examples
    --------
    >>> from pathlib import Path
    >>> from tempfile import TemporaryDirectory
    >>> with TemporaryDirectory() as folder:
    ...     path = Path(folder, "pond.geojson")
    ...     _ = path.write_text('{"type": "Polygon", "coordinates": []}')
    ...     read_geojson(path)
    {'type': 'Polygon', 'coordinates': []}
    """
    with open(path, "rb") as file:
        return parsed(file.read(MOST_BYTES + 1), os.fspath(path))


def parsed(text: str | bytes, name: str = "the text") -> Any:
    if len(text) > MOST_BYTES:
        raise ValueError(f"{name} has more than {MOST_BYTES} bytes")
    try:
        return json.loads(text)
    except (ValueError, RecursionError) as error:
        is_wkt = isinstance(text, str) and IS_WKT(text)
        why = NO_WKT if is_wkt else error
        raise ValueError(f"{name} is no GeoJSON: {why}") from None


def wkb_of(shape: Any) -> bytes | None:
    """The bytes of WKB, which begin as no text does, and of what has them in an attribute, as shapely's objects do."""
    found = shape if isinstance(shape, bytes) else getattr(shape, "wkb", None)
    return found if isinstance(found, bytes) and found[:1] in (b"\0", b"\1") else None


def shape_of(given: Any) -> Shape:
    """The rings and lines of GeoJSON, as objects of Python or as a text, or of what has a __geo_interface__; what has
    been read as it is."""
    if isinstance(given, Shape):
        return given
    if isinstance(given, (str, bytes)):
        return _shape_of_text(given)
    found, polygons, parts = Shape(array("d"), array("Q")), 0, 0
    waiting = [given]
    while waiting:
        look()
        if parts + len(waiting) > MOST_PARTS:
            raise ValueError(f"there are more than {MOST_PARTS} parts")
        parts += 1
        it = waiting.pop()
        it = getattr(it, "__geo_interface__", it)
        kind = it.get("type") if isinstance(it, dict) else None
        if not isinstance(kind, str):
            raise ValueError(f"it is no shape: {_said_without_type(it)}")
        if kind in PARTS:
            waiting += reversed(_list_of(it, PARTS[kind], kind))
        elif kind == "Feature":
            waiting += [it["geometry"]] if it.get("geometry") is not None else []
        elif kind in KINDS:
            polygons += _add_geometry(found, it, kind, polygons)
        else:
            raise ValueError(f"it is no shape: {kind[:99]!r}{_meant(kind)}")
    return found


def _shape_of_text(given: str | bytes) -> Shape:
    """The rings and lines of a text of GeoJSON, by the proved call."""
    text = given.encode() if isinstance(given, str) else given
    if len(text) > MOST_BYTES:
        raise ValueError(f"the text has more than {MOST_BYTES} bytes")
    try:
        positions, rings = _library.shape_of_geojson(text)
    except ShapeError:
        if isinstance(given, str) and IS_WKT(given):
            raise ValueError(f"the text is no GeoJSON: {NO_WKT}") from None
        raise
    shape = Shape(array("d", positions), array("Q", rings))
    shape.look_at_size()
    return shape


def _said_without_type(it: Any) -> str:
    """The error about an object that has no text as its type."""
    if not isinstance(it, dict):
        return type(it).__name__
    return 'a dict whose "type" is no text' if "type" in it else 'a dict without "type"'


def _meant(kind: str) -> str:
    """The type that was meant by one which GeoJSON doesn't have, if there is one like it."""
    found = difflib.get_close_matches(kind[:99].lower(), TYPES, 1)
    return f"; did you mean {TYPES[found[0]]!r}?" if found else ""


def polygons_of(given: Any) -> list[list[Any]]:
    """The rings of each polygon, as arrays of numpy of longitudes and latitudes."""
    import numpy
    shape = shape_of(given)
    positions = numpy.array(shape.positions).reshape(-1, 2)
    found: dict[int, list[Any]] = {}
    for begin, end, polygon in zip([0, *shape.rings[::2]], shape.rings[::2], shape.rings[1::2]):
        if polygon != LINE:
            found.setdefault(polygon, []).append(positions[begin:end])
    return list(found.values())


def _add_geometry(shape: Shape, it: Any, kind: str, polygons: int) -> int:
    """Adds what a geometry has; how many polygons."""
    parts = _list_of(it, "coordinates", kind)
    several = parts if kind.startswith("Multi") else [parts]
    if not kind.endswith("Polygon"):
        for one in several:
            if not _is_empty(one):
                shape.add([one] if kind.endswith("Point") else one, LINE)
        return 0
    for k, rings in enumerate(several, polygons):
        look()
        if isinstance(rings, NO_LISTS) or not hasattr(rings, "__len__"):
            raise ValueError(f"polygon {k} has a list of rings")
        for ring in rings:
            shape.add(ring, k)
    return len(several)


def _is_empty(one: Any) -> bool:
    """Whether a line has no position, or a point no number. What isn't a list is not empty."""
    try:
        return not isinstance(one, NO_LISTS) and len(one) == 0
    except TypeError:
        return False


def _list_of(it: Any, name: str, kind: str) -> list[Any]:
    parts = it.get(name)
    if not isinstance(parts, (list, tuple)) and not (hasattr(parts, "tolist") and getattr(parts, "ndim", 1)):
        raise ValueError(f"a {kind} has a list of {name}")
    return list(parts)


def _positions_of(line: Any, name: Callable[[], str]) -> Iterable[float]:
    """The longitudes and latitudes of a line, each position after the other."""
    try:
        if hasattr(line, "astype"):  # an array of numpy
            if line.ndim != 2 or line.shape[1] < 2 or line.dtype.kind not in "iuf":
                raise ValueError
            return array("d", line[:, :2].astype("float64").tobytes())
        if isinstance(line, NO_LISTS):
            raise ValueError
        line = list(line)
        numbers = list(chain.from_iterable(line))
        if not NO_NUMBERS.isdisjoint(map(type, numbers)):
            line = [[number_of(x, what) for x, what in zip(position, MOST)] for position in line]
        elif {*map(len, line)} <= {2}:
            return array("d", numbers)
        if line and min(map(len, line)) < 2:
            raise ValueError
        return array("d", chain.from_iterable(position[:2] for position in line))
    except (TypeError, ValueError, OverflowError):
        raise ValueError(f"{name()}: a position is a longitude and a latitude") from None


def said_of(shape: Shape | None, ring: int, position: int, text: str) -> str:
    """What is said of a fault: where it is, and the position."""
    if shape is None or 2 * ring >= len(shape.rings):
        return text
    if text.startswith("a ring "):
        return shape.name(ring) + text[len("a ring"):]
    place = shape.place(ring, position)
    wrong = next((what for number, what in zip(place, MOST) if not abs(number) <= MOST[what]), None)
    if wrong is None:
        return f"{shape.name(ring)}: {text}"
    return f"{shape.name(ring)}: position {position} is out of range: {range_of(wrong)}: {place}"
