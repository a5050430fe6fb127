"""Coverings of polygons, lines and points in degrees: by the calls of the library, which are proved, and s2union_geo.h,
which makes whole numbers of degrees and is tested."""

from __future__ import annotations

from typing import Any

from s2union import CellUnion, _library

from .places import look_at, number_of
from .reading import Shape, said_of, shape_of, wkb_of

MOST_CELLS = 1_000_000
USUAL = 200
EDGES = {"map": 0, "geodesic": 1, "left": 2}
NONE, OUTER, INNER, BOTH = 0, 1, 2, 3


def covering(shape: Any, max_cells: int | None = None, max_level: int = 30, *, min_level: int = 0,
             within: float | None = None, margin: float = 0.0, edges: str = "map") -> CellUnion:
    """A covering: a union that contains all of the shape.

    .. versionadded:: 1.1
    .. versionchanged:: 1.4
       Rings may cross, lines and points are taken, and so is WKB; the options after ``max_level`` are new.

    Parameters
    ----------
    shape : dict, str, bytes or object
        Polygons, lines and points: GeoJSON, as objects of Python or as a text, whose lists of positions may be arrays
        of numpy; WKB; or what has a ``wkb`` or a ``__geo_interface__``, as shapely's objects have.
        In a position the longitude comes first, from -540 to 540 degrees, then the latitude, from -90 to 90.
    max_cells : int, optional
        The most cells, 0 to 1,000,000: 200 if nothing is said, and 1,000,000 with ``within``. Where the shape meets
        more faces, these are the cells.
    max_level : int
        0 to 30: no cell is deeper.
    min_level : int
        0 to ``max_level``: cells at the border are at least as deep, even if there are more than ``max_cells`` then.
    within : float, optional
        Meters: cells at the border are so small that no place of the covering is farther from the shape, or from its
        margin, if ``max_cells`` allows it.
    margin : float
        Meters by which the covering goes beyond the shape, 0 to 300,000: a corridor, whose cells have a place within
        the margin, or at most 1% of it beyond.
    edges : str
        ``"map"``: straight in longitude and latitude. ``"geodesic"``: the shortest ways on the sphere, and of each ring
        the smaller side is inside. ``"left"``: the same, and what the rings have on their left is inside.

    Returns
    -------
    CellUnion
        The cells: each place of the shape lies in one.

    Raises
    ------
    ValueError
        Something isn't a shape, a position is out of range, or a ring is open or has fewer than four positions: the
        message has its polygon and ring. Or there are more than ``MOST_POSITIONS`` positions, edges that are too long
        for so few positions, ``MOST_BYTES`` bytes of a text, or a number is out of range.
    TypeError
        A number of cells or a level is no int, or a number of meters no number.
    OutOfMemoryError
        There is no memory.

    Notes
    -----
    A place is inside of a polygon if a way to it crosses the polygon's rings an odd number of times. Polygons on the
    map may overlap; geodesic rings are counted all together. The corners are rounded to 3 mm, for which the covering
    pays. The cells of the rounded shape are proved. S2: ``S2RegionCoverer::GetCovering``.

    Examples
    --------
    >>> square = {"type": "Polygon", "coordinates": [[[0, 0], [10, 0], [10, 10], [0, 10], [0, 0]]]}
    >>> from s2union_geo import leaf
    >>> outer = covering(square, 20)
    >>> len(outer) <= 20, leaf(0, 0) in outer, leaf(10, 5) in outer, leaf(20, 20) in outer
    (True, True, True, False)
    """
    return _covered(shape, _options(max_cells, max_level, min_level, within, margin, edges), OUTER)[0]


def interior(shape: Any, max_cells: int | None = None, max_level: int = 30, *, min_level: int = 0,
             within: float | None = None, margin: float = 0.0, edges: str = "map") -> CellUnion:
    """An inner covering: a union of cells that lie in the polygons.

    .. versionadded:: 1.1
    .. versionchanged:: 1.4
       As `covering`.

    Parameters
    ----------
    shape : dict, str, bytes or object
        What `covering` takes. Lines and points have nothing inside.
    max_cells : int, optional
        The most cells, 0 to 1,000,000: 200 if nothing is said, and 1,000,000 with ``within``.
    max_level : int
        0 to 30: no cell is deeper.
    min_level : int
        0 to ``max_level``: the shape is looked at down to cells of this level at least.
    within : float, optional
        Meters: each place of the polygons that is farther from their border lies in a cell, if ``max_cells`` allows it.
    margin : float
        Meters by which the cells stay away from the border, 0 to 300,000. Of lines and points the cells lie within it.
    edges : str
        As `covering` has it.

    Returns
    -------
    CellUnion
        The cells: each place of one lies in the polygons.

    Raises
    ------
    ValueError
        The errors of `covering`.
    TypeError
        A number of cells or a level is no int, or a number of meters no number.
    OutOfMemoryError
        There is no memory.

    Notes
    -----
    S2: ``S2RegionCoverer::GetInteriorCovering``.

    Examples
    --------
    >>> square = {"type": "Polygon", "coordinates": [[[0, 0], [10, 0], [10, 10], [0, 10], [0, 0]]]}
    >>> interior(square, 20) < covering(square, 20)
    True
    """
    return _covered(shape, _options(max_cells, max_level, min_level, within, margin, edges), INNER)[1]


def coverings(shape: Any, max_cells: int | None = None, max_level: int = 30, *, min_level: int = 0,
              within: float | None = None, margin: float = 0.0, edges: str = "map") -> tuple[CellUnion, CellUnion]:
    """Both: `covering` and `interior`. The shape is read once.

    .. versionadded:: 1.1
    .. versionchanged:: 1.4
       As `covering`.

    Parameters
    ----------
    shape : dict, str, bytes or object
        What `covering` takes.
    max_cells : int, optional
        The most cells of each, 0 to 1,000,000: 200 if nothing is said, and 1,000,000 with ``within``.
    max_level : int
        0 to 30: no cell is deeper.
    min_level : int
        0 to ``max_level``, as `covering` has it.
    within : float, optional
        Meters, as `covering` and `interior` have them.
    margin : float
        Meters, as `covering` and `interior` have them.
    edges : str
        As `covering` has it.

    Returns
    -------
    outer : CellUnion
        The result of `covering`.
    inner : CellUnion
        The result of `interior`.

    Raises
    ------
    ValueError
        The errors of `covering`.
    TypeError
        A number of cells or a level is no int, or a number of meters no number.
    OutOfMemoryError
        There is no memory.

    Examples
    --------
    >>> square = {"type": "Polygon", "coordinates": [[[0, 0], [10, 0], [10, 10], [0, 10], [0, 0]]]}
    >>> coverings(square) == (covering(square), interior(square))
    True
    """
    return _covered(shape, _options(max_cells, max_level, min_level, within, margin, edges), BOTH)


def circle(longitude: float, latitude: float, radius: float, max_cells: int | None = None, max_level: int = 30, *,
           min_level: int = 0, within: float | None = None) -> tuple[CellUnion, CellUnion]:
    """The two coverings of the places within a radius of a place, on a sphere with the earth's mean radius.

    .. versionadded:: 1.4

    Parameters
    ----------
    longitude : float
        From -540 to 540 degrees; it comes first.
    latitude : float
        From -90 to 90 degrees.
    radius : float
        Meters, 0 to 20,000,000.
    max_cells : int, optional
        The most cells of each, 0 to 1,000,000: 200 if nothing is said, and 1,000,000 with ``within``.
    max_level : int
        0 to 30: no cell is deeper.
    min_level : int
        0 to ``max_level``, as `covering` has it.
    within : float, optional
        Meters, as `covering` and `interior` have them.

    Returns
    -------
    outer : CellUnion
        A union that contains the circle.
    inner : CellUnion
        A union that lies in it.

    Raises
    ------
    ValueError
        A number is out of range.
    TypeError
        A value isn't a number.
    OutOfMemoryError
        There is no memory.

    Notes
    -----
    S2: ``S2Cap``, with the kilometers of ``S2Earth``. A `covering` of a line with a ``margin`` is a corridor.

    Examples
    --------
    >>> from s2union_geo import leaf
    >>> outer, inner = circle(2.3522, 48.8566, 1000, 50)
    >>> leaf(2.3522, 48.8566) in inner, leaf(2.36, 48.86) in outer, leaf(2.37, 48.86) in outer
    (True, True, False)
    """
    place = number_of(longitude, "longitude"), number_of(latitude, "latitude")
    look_at(*place)
    meters = number_of(radius, "radius")
    if not 0 <= meters <= 9_000_000:
        raise ValueError(f"a radius is from 0 to 20000000 meters: {radius!r}")
    options = _options(max_cells, max_level, min_level, within, 0.0, "geodesic")
    return _unions(_library.coverings_of_circle(*place, meters, options, BOTH), None)


def look_at_shape(shape: Any) -> None:
    """The error of a `covering` of a shape, in time by its positions. Two errors aren't found so: that of edges which
    are too long for so few, and that of a shape without a place outside. A shape that is less than 90 degrees wide and
    high has neither."""
    _covered(shape, _USUAL_OPTIONS, NONE)


def _options(max_cells: int | None, max_level: int, min_level: int, within: float | None, margin: float,
             edges: str) -> Any:
    deepest = _number(max_level, 30, "max_level")
    least = _number(min_level, 30, "min_level")
    if least > deepest:
        raise ValueError(f"min_level is out of range: {least} is more than max_level, {deepest}")
    if edges not in EDGES:
        raise ValueError(f"edges are one of {', '.join(map(repr, EDGES))}: {edges!r}")
    meters = number_of(margin, "margin")
    if not 0 <= meters <= 300_000:
        raise ValueError(f"a margin is from 0 to 300000 meters: {margin!r}")
    if within is not None:
        width = number_of(within, "number of meters")
        if not width > 0:
            raise ValueError(f"a number of meters is more than 0: {within!r}")
        deepest = max(least, min(deepest, _library.level_within(width)))
    usual = USUAL if within is None else MOST_CELLS
    most = usual if max_cells is None else _number(max_cells, MOST_CELLS, "max_cells")
    return most, least, deepest, EDGES[edges], meters


_USUAL_OPTIONS = (USUAL, 0, 30, EDGES["map"], 0.0)


def _number(value: Any, most: int, what: str) -> int:
    return _library.number(value, most, what)


def _covered(shape: Any, options: Any, which: int) -> tuple[CellUnion, CellUnion]:
    wkb = wkb_of(shape)
    if wkb is None:
        return _of_geojson(shape, options, which)
    answer = _library.coverings_of_wkb(wkb, options, which)
    if len(answer) > 2 and hasattr(shape, "__geo_interface__"):  # an error, which has names there
        return _of_geojson(shape, options, which)
    return _unions(answer, None)


def _of_geojson(shape: Any, options: Any, which: int) -> tuple[CellUnion, CellUnion]:
    read = shape_of(shape)
    return _unions(_library.coverings(memoryview(read.positions), memoryview(read.rings), options, which), read)


def _unions(answer: Any, shape: Shape | None) -> tuple[CellUnion, CellUnion]:
    """The unions of cells in bytes, or the error that came in their place."""
    if len(answer) > 2:
        _, ring, position, text = answer
        raise ValueError(said_of(shape, ring, position, text))
    outer, inner = (CellUnion._holding(cells) for cells in answer)
    return outer, inner
