"""The area of unions in square kilometers, their boundary as lines, and their outline as polygons."""

from __future__ import annotations

from typing import Any

import numpy
from s2union import CellUnion, _library


def area(union: CellUnion) -> float:
    """The area of a union, on a sphere with the earth's mean radius.

    .. versionadded:: 1.2

    Parameters
    ----------
    union : CellUnion
        Any union.

    Returns
    -------
    float
        Square kilometers. The earth is flattened, so an area there differs by less than 1 percent.

    Notes
    -----
    S2: ``S2CellUnion::ExactArea``, which is that on a sphere of radius 1.

    Examples
    --------
    >>> from s2union import CellUnion
    >>> round(area(CellUnion.from_tokens("1"))), area(CellUnion())
    (85011012, 0.0)
    """
    return _library.area(union.ids)


def boundary(union: CellUnion) -> dict[str, Any]:
    """The boundary of a union, as lines on a map.

    .. versionadded:: 1.2

    Parameters
    ----------
    union : CellUnion
        Any union.

    Returns
    -------
    dict
        A MultiLineString of GeoJSON: closed lines through corners of cells, with the union on their left. In a position
        the longitude comes first, then the latitude, in degrees. Two lines may touch in a corner, and a line goes on
        beyond 180 or -180 degrees; one around a pole ends 360 degrees from where it begins.

    Raises
    ------
    OutOfMemoryError
        There is no memory for the lines.

    Notes
    -----
    S2: ``S2Polygon::InitToCellUnionBorder``.

    Examples
    --------
    >>> from s2union import CellUnion
    >>> boundary(CellUnion.from_tokens("14 1c")) == boundary(CellUnion.from_tokens("14 1c 14"))
    True
    >>> [len(line) for line in boundary(CellUnion.from_tokens("04 0c 1c"))["coordinates"]]
    [9]
    """
    rings, _ = _lists_of(*_library.boundary(union.ids))
    return {"type": "MultiLineString", "coordinates": rings}


def outline(union: CellUnion) -> dict[str, Any]:
    """The outline of a union, as polygons that a map can fill: without the borders between its cells.

    .. versionadded:: 1.4

    Parameters
    ----------
    union : CellUnion
        Any union.

    Returns
    -------
    dict
        A MultiPolygon of GeoJSON, valid by the rules of simple features: for each part that hangs together a ring
        around it, counterclockwise, and then its holes, clockwise. Parts that touch in a corner alone are two. In a
        position the longitude comes first, from -180 to 180 degrees, then the latitude: the date line cuts polygons in
        two, and one with a pole goes along the map's upper or lower edge. A side that is curved on the map has
        positions between its corners, so that no two rings cross.

    Raises
    ------
    OutOfMemoryError
        There is no memory for the polygons.

    Notes
    -----
    S2 has none: its polygons are not flat, ``S2Polygon::InitToCellUnionBorder`` is `boundary`.

    Examples
    --------
    >>> from s2union import CellUnion
    >>> [len(polygon) for polygon in outline(CellUnion.from_tokens("14 1c"))["coordinates"]]
    [1]
    >>> outline(CellUnion())
    {'type': 'MultiPolygon', 'coordinates': []}
    """
    rings, ends = _lists_of(*_library.outline(union.ids))
    return {"type": "MultiPolygon", "coordinates": [rings[begin:end] for begin, end in zip([0, *ends], ends)]}


def _lists_of(positions: bytes, *ends: bytes) -> tuple[list[list[list[float]]], list[int]]:
    """The positions of each ring, and how many rings there are up to the end of each polygon."""
    ring_ends, polygon_ends = (numpy.frombuffer(end, numpy.uintp).tolist() for end in ends)
    places = numpy.frombuffer(positions, "float64").reshape(-1, 2).tolist()
    return [places[begin:end] for begin, end in zip([0, *ring_ends], ring_ends)], polygon_ends
