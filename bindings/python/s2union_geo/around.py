"""The cells around a cell and around a union, and the box of degrees around a union: S2's, without numpy."""

from __future__ import annotations

from typing import SupportsIndex

from s2union import CellUnion, _library


def neighbors(cell: SupportsIndex, level: SupportsIndex | None = None) -> CellUnion:
    """The cells that touch a cell, at an edge or a corner.

    .. versionadded:: 1.4

    Parameters
    ----------
    cell : int
        A cell.
    level : int, optional
        The level of the neighbors, that of the cell or a deeper one: the cell's own if nothing is said.

    Returns
    -------
    CellUnion
        The neighbors, none of which is joined to a larger cell: of the cell's own level eight, seven at a corner of the
        cube, and four of a face.

    Raises
    ------
    NotACellError
        The number is the identifier of no cell.
    OutOfRangeError
        The level is above that of the cell, or beyond 30.
    TooManyCellsError
        There are more than 1,000,000: the level is 18 deeper than the cell or more.
    OutOfMemoryError
        There is no memory.

    Notes
    -----
    S2: ``S2CellId::AppendAllNeighbors``.

    Examples
    --------
    >>> from s2union import from_token
    >>> neighbors(from_token("89c25"))
    <CellUnion of 8 cells: 89c21 89c23 89c27 89c29 89c2f 89c31 89c3b 89c3d>
    """
    own = _library.level(cell)
    return CellUnion._holding(_library.neighbors(cell, own if level is None else level))


def edge_neighbors(cell: SupportsIndex) -> list[int]:
    """The four cells of a cell's level that share an edge with it.

    .. versionadded:: 1.4

    Parameters
    ----------
    cell : int
        A cell.

    Returns
    -------
    list of int
        The one below it on its face, and then counterclockwise.

    Raises
    ------
    NotACellError
        The number is the identifier of no cell.

    Notes
    -----
    S2: ``S2CellId::GetEdgeNeighbors``.

    Examples
    --------
    >>> from s2union import from_token, token
    >>> [token(each) for each in edge_neighbors(from_token("1"))]
    ['b', '3', '5', '9']
    """
    return _cells(_library.edge_neighbors(cell))


def vertex_neighbors(cell: SupportsIndex, level: SupportsIndex) -> list[int]:
    """The cells of a level around the corner that is nearest to a cell, of those of its ancestor there.

    .. versionadded:: 1.4

    Parameters
    ----------
    cell : int
        A cell.
    level : int
        0 to the cell's own less 1.

    Returns
    -------
    list of int
        Four cells, or three at a corner of the cube. The first has the cell.

    Raises
    ------
    NotACellError
        The number is the identifier of no cell.
    OutOfRangeError
        The level is not above that of the cell.

    Notes
    -----
    S2: ``S2CellId::AppendVertexNeighbors``.

    Examples
    --------
    >>> from s2union import from_token, token
    >>> [token(each) for each in vertex_neighbors(from_token("89c25"), 3)]
    ['89c', '4cc', '884', '4d4']
    """
    return _cells(_library.vertex_neighbors(cell, level))


def expanded(union: CellUnion, level: SupportsIndex) -> CellUnion:
    """A union with the cells of a level around it.

    .. versionadded:: 1.4

    Parameters
    ----------
    union : CellUnion
        Any union. Of its cells that are deeper than the level, those of the level that have them are taken.
    level : int
        0 to 30.

    Returns
    -------
    CellUnion
        The union, and each cell of the level that touches one of its cells.

    Raises
    ------
    OutOfRangeError
        The level is out of range.
    TooManyCellsError
        There are more than 4,000,000 cells around it, and nine for each of its own.
    OutOfMemoryError
        There is no memory.

    Notes
    -----
    S2: ``S2CellUnion::Expand(int expand_level)``. For a margin in meters around a shape take `covering` with
    ``margin``.

    Examples
    --------
    >>> from s2union import CellUnion, from_token
    >>> cell = CellUnion.from_tokens("89c25")
    >>> expanded(cell, 8) == cell | neighbors(from_token("89c25"))
    True
    """
    return CellUnion._holding(_library.expanded(union.ids, level))


def bounds(union: CellUnion) -> tuple[float, float, float, float] | None:
    """The box of degrees in which a union lies, as ``bbox`` of GeoJSON has it.

    .. versionadded:: 1.4

    Parameters
    ----------
    union : CellUnion
        Any union.

    Returns
    -------
    tuple of float or None
        The west, south, east and north. It goes over the date line if the east is less than the west; with a pole, or
        where there is no gap, it has all longitudes, from -180 to 180. None of the union without cells.

    Raises
    ------
    OutOfMemoryError
        There is no memory for the cells' own boxes.

    Notes
    -----
    S2: ``S2CellUnion::GetRectBound``. The box is at most 1e-13 degrees wider on each side than the narrowest one, since
    numbers are rounded.

    Examples
    --------
    >>> from s2union import CellUnion
    >>> [round(side, 6) for side in bounds(CellUnion.from_tokens("89c25"))]
    [-74.217933, 40.45771, -73.841906, 40.827707]
    >>> [round(side) for side in bounds(CellUnion.from_tokens("7"))], bounds(CellUnion())
    ([135, -45, -135, 45], None)
    """
    west, south, east, north = _library.rect_bound(union.ids)
    return None if south > north else (west, south, east, north)


def _cells(ids: bytes) -> list[int]:
    return memoryview(ids).cast("Q").tolist()
