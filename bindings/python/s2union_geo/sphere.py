"""Places on the sphere, in degrees, and S2's projection onto the cube, in plain floating point. Cells of places, and
places of cells, are those of s2union_geo.h, in C; what is drawn is projected here, by numpy."""

from __future__ import annotations

from typing import Any

import numpy
from s2union import CellUnion, _library, square

from .places import MOST, leaf, range_of

SIDE = 2**30  # of a face, in leaves


def degrees_of(value: Any, what: str) -> Any:
    """Longitudes or latitudes as an array of float64. One that isn't a number in range is an error with its place."""
    given = numpy.asarray(value)
    if given.dtype.kind not in "iuf" and given.size:
        kind = given.flat[0]
        raise TypeError(f"a {what} is a number, not {type(kind).__name__}: {kind!r}")
    numbers = given.astype("float64")
    wrong = numpy.flatnonzero(~(numpy.abs(numbers) <= MOST[what]))
    if wrong.size:
        place = f" at place {wrong[0]}" if numbers.ndim else ""
        raise ValueError(f"{range_of(what)}: {numbers.flat[wrong[0]].item()!r}{place}")
    return numbers


def places_of(longitude: Any, latitude: Any) -> Any:
    """Both as arrays of one shape."""
    x, y = degrees_of(longitude, "longitude"), degrees_of(latitude, "latitude")
    try:
        return numpy.broadcast_arrays(x, y)
    except ValueError:
        raise ValueError(f"{x.size} longitudes and {y.size} latitudes") from None


def geographic(x: Any, y: Any, z: Any) -> Any:
    """The longitude and the latitude of points, in degrees."""
    return numpy.degrees(numpy.arctan2(y, x)), numpy.degrees(numpy.arctan2(z, numpy.hypot(x, y)))


def on_cube_line(i: Any) -> Any:
    """The places u, from -1 to 1, of a face at coordinates in leaves."""
    s = i / SIDE
    return numpy.where(s >= 0.5, 4 * s * s - 1, 1 - 4 * (1 - s) * (1 - s)) / 3


def on_axes(face: Any, u: Any, v: Any, one: Any) -> tuple[Any, Any, Any]:
    """The points of a cube of which each face is as far as `one` from the middle, at u and v from the middles of its
    faces."""
    x = numpy.choose(face, [one, -u, -u, -one, v, v])
    y = numpy.choose(face, [u, one, -v, -v, -one, u])
    z = numpy.choose(face, [v, v, one, -u, -u, -one])
    return x, y, z


def on_cube(face: Any, i: Any, j: Any) -> Any:
    """The points of the cube at the coordinates i and j of faces, in leaves: S2's projection, without its length."""
    u, v = on_cube_line(i), on_cube_line(j)
    return on_axes(face, u, v, numpy.ones_like(u))


def _memory_of(array: Any) -> memoryview:
    """The memory of an array for a call, in C's order; a copy, if it lies in another."""
    return memoryview(numpy.ascontiguousarray(array).ravel())


def squares_of(cells: Any) -> Any:
    """The face, i, j and side of the square of each cell."""
    return numpy.array([square(cell) for cell in cells], "int64").reshape(-1, 4).T


def leaves(longitude: Any, latitude: Any) -> Any:
    """The leaf of each place: that of S2 itself.

    .. versionadded:: 1.1

    Parameters
    ----------
    longitude : array of float
        From -540 to 540 degrees; it comes first.
    latitude : array of float
        From -90 to 90 degrees, of the same shape. Either may be a single number.

    Returns
    -------
    array of uint64
        The cells, in the shape of the arguments.

    Raises
    ------
    ValueError
        A number is out of range, or missing: the message has its place. Or the shapes differ.
    TypeError
        A value isn't a number.

    Notes
    -----
    S2: ``S2CellId(S2LatLng::FromDegrees(latitude, longitude))``, which takes the latitude first.

    Examples
    --------
    >>> leaves([2.3522, 180.0], [48.8566, -16.5])
    array([5180949494577750587, 7935343058781468041], dtype=uint64)
    """
    longitude, latitude = places_of(longitude, latitude)
    found = _library.leaves(_memory_of(longitude), _memory_of(latitude))
    return numpy.frombuffer(found, "uint64").reshape(longitude.shape)


def points(cells: Any) -> Any:
    """The middles of cells. The middle of a leaf is less than 8 mm from each place in it.

    .. versionadded:: 1.1

    Parameters
    ----------
    cells : iterable or array of int
        Cells of any level.

    Returns
    -------
    longitude : array of float64
        From -180 to 180 degrees.
    latitude : array of float64
        From -90 to 90 degrees.

    Raises
    ------
    NotACellError
        A number is not a cell.
    TypeError
        A value isn't an int.

    Notes
    -----
    S2: ``S2CellId::ToLatLng``.

    Examples
    --------
    >>> [float(round(found[0], 6)) for found in points([leaf(2.3522, 48.8566)])]
    [2.3522, 48.8566]
    """
    longitude, latitude = numpy.frombuffer(_library.middles(_ids_of(cells)), "float64").reshape(2, -1)
    return longitude, latitude


def _ids_of(cells: Any) -> Any:
    """The numbers of cells as they lie, or else in bytes. The first number that is no cell is an error."""
    if isinstance(cells, CellUnion):
        return cells.ids
    if isinstance(cells, numpy.ndarray) and cells.ndim == 1 and cells.dtype in ("uint64", "int64"):
        return _memory_of(cells)
    given = list(cells)
    try:
        return _library.list_of(given)
    except (TypeError, ValueError):
        squares_of(given)
        raise
